//! From values to bytes.

use crate::constructor::{Constructor, Of, Operand};
use crate::expression::Record;
use crate::field::{Field, Look};
use crate::limits;
use crate::pattern::Pattern;
use crate::refusal::{ensure, Refusal};
use crate::runs::place;
use crate::shown::{parts, Part};
use crate::tables::Tables;

/// Fields and constructors in named tables.
#[derive(Clone, Debug, Default)]
pub struct Builder {
    fields: Vec<(String, Field)>,
    constructors: Vec<(String, Constructor)>,
}

impl Builder {
    pub fn new() -> Builder {
        Builder::default()
    }

    pub fn field(&mut self, name: &str, field: Field) -> &mut Builder {
        self.fields.push((name.to_string(), field));
        self
    }

    /// Adds a constructor to a table, which its first constructor makes.
    pub fn constructor(&mut self, table: &str, constructor: Constructor) -> &mut Builder {
        self.constructors.push((table.to_string(), constructor));
        self
    }

    /// The description with which decoding starts at the table `root`.
    pub fn build(&self, root: &str) -> Result<Vec<u8>, Refusal> {
        self.judge_fields()?;
        at_most(
            limits::CONSTRUCTORS,
            self.constructors.len(),
            "constructors",
        )?;
        let mut tables = Tables::new(self.constructors.iter().map(|(table, _)| table.as_str()))?;
        self.judge_names(&tables)?;
        let mut resolved = Vec::new();
        for (table, constructor) in &self.constructors {
            let subject = format!("constructor {:?} of table {table}", constructor.shows);
            let constructor = self
                .resolve(&tables, table, constructor)
                .map_err(|refusal| refusal.of(subject))?;
            for operand in &constructor.operands {
                if let Target::Table(inner) = operand.target {
                    tables.add_inner(constructor.table, inner);
                }
            }
            resolved.push(constructor);
        }
        let numbers = tables.numbers(root)?;
        // Stable: within a table they keep their order.
        resolved.sort_by_key(|constructor| numbers[constructor.table]);
        let mut sections = Sections::default();
        sections.add_fields(self.fields.iter().map(|(_, field)| field));
        for constructor in &resolved {
            sections.add_constructor(constructor, &numbers);
        }
        sections.bytes()
    }

    fn judge_fields(&self) -> Result<(), Refusal> {
        at_most(limits::FIELDS, self.fields.len(), "fields")?;
        for (i, (name, field)) in self.fields.iter().enumerate() {
            ensure!(
                self.find_field(name) == Some(i),
                "there are two fields {name}"
            );
            field
                .judge()
                .map_err(|refusal| refusal.of(format!("field {name}")))?;
        }
        Ok(())
    }

    /// An operand names a field or a table, so they are kept apart.
    fn judge_names(&self, tables: &Tables) -> Result<(), Refusal> {
        for (name, _) in &self.fields {
            ensure!(
                tables.find(name).is_none(),
                "{name} is the name of a field and of a table"
            );
        }
        Ok(())
    }

    fn find_field(&self, name: &str) -> Option<usize> {
        self.fields.iter().position(|(field, _)| field == name)
    }

    fn find(&self, tables: &Tables, name: &str) -> Option<Target> {
        let field = self.find_field(name).map(Target::Field);
        field.or_else(|| tables.find(name).map(Target::Table))
    }

    fn resolve<'a>(
        &self,
        tables: &Tables,
        table: &str,
        constructor: &'a Constructor,
    ) -> Result<Resolved<'a>, Refusal> {
        let (pattern, minimum) = constructor.judge_pattern()?;
        let parts = parts(&constructor.shows)?;
        let operands = all_operands(&constructor.operands, &parts);
        ensure!(
            operands.len() <= limits::CONSTRUCTOR_OPERANDS,
            "{} operands, and 8 is the most",
            operands.len()
        );
        let placed = (0..operands.len()).map(|i| {
            self.place(tables, &operands, i)
                .map_err(|refusal| refusal.of(format!("operand {}", operands[i].name)))
        });
        Ok(Resolved {
            // Every constructor's table has been gathered.
            table: tables.find(table).unwrap_or_default(),
            minimum,
            pattern,
            operands: placed.collect::<Result<_, _>>()?,
            pieces: pieces(&operands, parts)?,
        })
    }

    /// One of a constructor's operands.
    fn place(&self, tables: &Tables, operands: &[Operand], i: usize) -> Result<Placed, Refusal> {
        let (earlier, operand) = (&operands[..i], &operands[i]);
        let target = self.target(tables, operands, operand)?;
        ensure!(
            number_of(earlier, &operand.name).is_none(),
            "two operands have this name"
        );
        let anchor = match &operand.after {
            None => 0,
            Some(name) => number_of(earlier, name)
                .ok_or_else(|| Refusal::new(format!("{name} is no earlier operand")))?,
        };
        let offset = operand.offset;
        ensure!(
            offset <= limits::OFFSET,
            "an offset of {offset}, and 15 is the most"
        );
        let placeless = match target {
            Target::Field(field) if self.fields[field].1.is_context() => Some("a context field"),
            Target::Computed(_) => Some("a computed operand"),
            _ => None,
        };
        if let Some(what) = placeless {
            ensure!(
                anchor == 0 && offset == 0,
                "{what} has no place in the instruction"
            );
        }
        Ok(Placed {
            target,
            anchor,
            offset,
        })
    }

    fn target(
        &self,
        tables: &Tables,
        operands: &[Operand],
        operand: &Operand,
    ) -> Result<Target, Refusal> {
        match &operand.of {
            Of::Named(of) => self.find(tables, of).ok_or_else(|| {
                let words = format!("{of} is no field and no table that has a constructor");
                Refusal::new(words)
            }),
            Of::Computed(expression) => {
                let number = |name: &str| self.number_of_field(operands, name);
                Ok(Target::Computed(expression.record(number)?))
            }
        }
    }

    fn number_of_field(&self, operands: &[Operand], name: &str) -> Result<u8, Refusal> {
        let is_field = |number: &u8| match &operands[usize::from(*number) - 1].of {
            Of::Named(of) => self.find_field(of).is_some(),
            Of::Computed(_) => false,
        };
        number_of(operands, name)
            .filter(is_field)
            .ok_or_else(|| Refusal::new(format!("{name} is no field operand")))
    }
}

fn at_most(limit: usize, count: usize, what: &str) -> Result<(), Refusal> {
    ensure!(count <= limit, "{count} {what}, and {limit} is the most");
    Ok(())
}

/// The operands that were introduced, then those that are only shown, then those
/// that only expressions name.
fn all_operands(introduced: &[Operand], parts: &[Part]) -> Vec<Operand> {
    let mut all = introduced.to_vec();
    let shown = parts.iter().filter_map(|part| match part {
        Part::Text(_) => None,
        Part::Operand(name) => Some(name.as_str()),
    });
    for name in shown.chain(introduced.iter().flat_map(Operand::fields)) {
        if all.iter().all(|operand| operand.name != name) {
            all.push(Operand::new(name));
        }
    }
    all
}

/// The number of a constructor's operand, from 1.
fn number_of(operands: &[Operand], name: &str) -> Option<u8> {
    let index = operands.iter().position(|operand| operand.name == name)?;
    Some(index as u8 + 1)
}

fn pieces(operands: &[Operand], parts: Vec<Part>) -> Result<Vec<Shown>, Refusal> {
    let mut pieces = Vec::new();
    for part in parts {
        let piece = match part {
            Part::Text(text) => Shown::Text(text),
            // All that is shown is among the operands.
            Part::Operand(name) => {
                let number = number_of(operands, &name).unwrap_or_default();
                let piece = Shown::Operand(number);
                ensure!(!pieces.contains(&piece), "operand {name} is shown twice");
                piece
            }
        };
        pieces.push(piece);
    }
    Ok(pieces)
}

/// A sound constructor; tables and fields by index.
struct Resolved<'a> {
    table: usize,
    minimum: u8,
    pattern: &'a Pattern,
    operands: Vec<Placed>,
    pieces: Vec<Shown>,
}

enum Target {
    Field(usize),
    Table(usize),
    Computed(Record),
}

struct Placed {
    target: Target,
    anchor: u8,
    offset: u8,
}

#[derive(PartialEq)]
enum Shown {
    Text(String),
    Operand(u8),
}

/// The records of the sections.
#[derive(Default)]
struct Sections {
    fields: Vec<[u8; 8]>,
    names: Vec<[u8; 3]>,
    constructors: Vec<Vec<u8>>,
    operands: Vec<[u8; 4]>,
    pieces: Vec<[u8; 4]>,
    text: Vec<u8>,
    expressions: Vec<Record>,
}

impl Sections {
    fn add_fields<'a>(&mut self, fields: impl Iterator<Item = &'a Field>) {
        for field in fields {
            let first_name = match &field.look {
                Look::Names(names) => self.add_names(names),
                _ => 0,
            };
            self.fields.push(field.record(first_name));
        }
    }

    fn add_names(&mut self, names: &[Option<String>]) -> usize {
        let record = |name: &Option<String>| {
            let name = name.as_deref().unwrap_or_default();
            let offset = self.add_text(name);
            [offset[0], offset[1], name.len() as u8]
        };
        let run: Vec<[u8; 3]> = names.iter().map(record).collect();
        place(&mut self.names, &run)
    }

    /// Its offset.
    fn add_text(&mut self, text: &str) -> [u8; 2] {
        let offset = place(&mut self.text, text.as_bytes());
        (offset as u16).to_le_bytes()
    }

    fn add_constructor(&mut self, constructor: &Resolved, numbers: &[u8]) {
        let operand = |operand: &Placed| {
            let (kind, index) = match operand.target {
                Target::Field(field) => (0, field as u8),
                Target::Table(table) => (1, numbers[table]),
                Target::Computed(record) => (2, place(&mut self.expressions, &[record]) as u8),
            };
            [kind, index, operand.anchor, operand.offset]
        };
        let operands: Vec<[u8; 4]> = constructor.operands.iter().map(operand).collect();
        let piece = |piece: &Shown| match piece {
            Shown::Operand(number) => [1, *number, 0, 0],
            Shown::Text(text) => {
                let offset = self.add_text(text);
                [0, text.len() as u8, offset[0], offset[1]]
            }
        };
        let pieces: Vec<[u8; 4]> = constructor.pieces.iter().map(piece).collect();
        let mut record = vec![numbers[constructor.table], constructor.minimum];
        record.extend(constructor.pattern.record());
        record.push(operands.len() as u8);
        record.extend((place(&mut self.operands, &operands) as u16).to_le_bytes());
        record.push(pieces.len() as u8);
        record.extend((place(&mut self.pieces, &pieces) as u16).to_le_bytes());
        self.constructors.push(record);
    }

    fn bytes(&self) -> Result<Vec<u8>, Refusal> {
        at_most(limits::NAMES, self.names.len(), "names")?;
        at_most(limits::OPERANDS, self.operands.len(), "operands")?;
        at_most(limits::PIECES, self.pieces.len(), "pieces")?;
        at_most(limits::TEXT, self.text.len(), "characters of text")?;
        at_most(limits::EXPRESSIONS, self.expressions.len(), "expressions")?;
        let mut bytes = Vec::new();
        add_section(&mut bytes, &self.fields);
        add_section(&mut bytes, &self.names);
        add_section(&mut bytes, &self.constructors);
        add_section(&mut bytes, &self.operands);
        add_section(&mut bytes, &self.pieces);
        add_section(&mut bytes, self.text.as_chunks::<1>().0);
        // A description may end here.
        if !self.expressions.is_empty() {
            add_section(&mut bytes, &self.expressions);
        }
        Ok(bytes)
    }
}

fn add_section(bytes: &mut Vec<u8>, records: &[impl AsRef<[u8]>]) {
    bytes.extend((records.len() as u16).to_le_bytes());
    for record in records {
        bytes.extend(record.as_ref());
    }
}
