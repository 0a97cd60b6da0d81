//! Stand-in for `itertools`: `Itertools::format`, with which clauses print themselves.

use std::{cell::RefCell, fmt};

pub struct Format<'a, I> {
    items: RefCell<Option<I>>,
    separator: &'a str,
}

impl<I: Iterator> fmt::Display for Format<'_, I>
where
    I::Item: fmt::Display,
{
    fn fmt(&self, f: &mut fmt::Formatter<'_>) -> fmt::Result {
        for (i, item) in self.items.take().into_iter().flatten().enumerate() {
            if i > 0 {
                f.write_str(self.separator)?;
            }
            item.fmt(f)?;
        }
        Ok(())
    }
}

pub trait Itertools: Iterator + Sized {
    fn format(self, separator: &str) -> Format<'_, Self> {
        Format { items: RefCell::new(Some(self)), separator }
    }
}

impl<I: Iterator> Itertools for I {}
