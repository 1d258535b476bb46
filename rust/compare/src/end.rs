//! How a command ends, other than by words about wrong arguments.

pub enum End {
    Good,
    Bad,
}
