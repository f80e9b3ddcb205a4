//! The numbers of tables.

use crate::limits;
use crate::refusal::{ensure, Refusal};

/// The tables in the order of their first constructors, with the tables that
/// their operands name.
#[derive(Debug)]
pub struct Tables<'a> {
    names: Vec<&'a str>,
    inner: Vec<Vec<usize>>,
}

impl<'a> Tables<'a> {
    /// From the table of each constructor.
    pub fn new(of_constructors: impl IntoIterator<Item = &'a str>) -> Result<Tables<'a>, Refusal> {
        let mut names = Vec::new();
        for table in of_constructors {
            if !names.contains(&table) {
                names.push(table);
            }
        }
        ensure!(
            names.len() <= limits::TABLES,
            "{} tables, and 64 is the most",
            names.len()
        );
        let inner = vec![Vec::new(); names.len()];
        Ok(Tables { names, inner })
    }

    pub fn find(&self, name: &str) -> Option<usize> {
        self.names.iter().position(|table| *table == name)
    }

    pub fn add_inner(&mut self, user: usize, inner: usize) {
        self.inner[user].push(inner);
    }

    /// The number of each table: inner ones are lower and the root is last.
    pub fn numbers(&self, root: &str) -> Result<Vec<u8>, Refusal> {
        let Some(root) = self.find(root) else {
            let words = format!("the root {root} is no table that has a constructor");
            return Err(Refusal::new(words));
        };
        let mut order = Order {
            tables: self,
            path: Vec::new(),
            done: Vec::new(),
        };
        let others = (0..self.names.len()).filter(|&table| table != root);
        for table in others.chain([root]) {
            order.visit(table)?;
        }
        self.judge_root(root)?;
        let mut numbers = vec![0; self.names.len()];
        for (number, &table) in order.done.iter().enumerate() {
            numbers[table] = number as u8;
        }
        Ok(numbers)
    }

    fn judge_root(&self, root: usize) -> Result<(), Refusal> {
        let user = self.inner.iter().position(|inner| inner.contains(&root));
        if let Some(user) = user {
            let (root, user) = (self.names[root], self.names[user]);
            ensure!(false, "the root {root} is an operand in table {user}");
        }
        Ok(())
    }
}

/// A walk in which a table is done after all that it names.
struct Order<'a> {
    tables: &'a Tables<'a>,
    path: Vec<usize>,
    done: Vec<usize>,
}

impl Order<'_> {
    fn visit(&mut self, table: usize) -> Result<(), Refusal> {
        if self.done.contains(&table) {
            return Ok(());
        }
        let before = self.path.iter().position(|&earlier| earlier == table);
        self.path.push(table);
        if let Some(before) = before {
            let circle = self.path[before..].iter();
            let names: Vec<&str> = circle.map(|&table| self.tables.names[table]).collect();
            ensure!(false, "tables name each other: {}", names.join(", "));
        }
        for &inner in &self.tables.inner[table] {
            self.visit(inner)?;
        }
        self.path.pop();
        self.done.push(table);
        Ok(())
    }
}
