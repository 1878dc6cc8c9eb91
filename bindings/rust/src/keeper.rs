//! A transaction, a pin or a checkpoint keeps the table or the database open over which it has begun.
use crate::Table;
use std::ops::Deref;
use std::sync::Arc;

/// A table, or a database, that is kept open: by a borrow, or by a share.
#[derive(Debug)]
pub(crate) enum Keeper<'k, T = Table> {
    Lent(&'k T),
    Shared(Arc<T>),
}

impl<T> Clone for Keeper<'_, T> {
    fn clone(&self) -> Self {
        match self {
            Keeper::Lent(kept) => Keeper::Lent(kept),
            Keeper::Shared(kept) => Keeper::Shared(Arc::clone(kept)),
        }
    }
}

impl<T> Deref for Keeper<'_, T> {
    type Target = T;

    fn deref(&self) -> &T {
        match self {
            Keeper::Lent(kept) => kept,
            Keeper::Shared(kept) => kept,
        }
    }
}
