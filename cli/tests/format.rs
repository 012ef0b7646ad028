//! `docs/FORMAT.md`: its worked example against the proved calls, its items
//! against the header, and its refusals against the header's and the tool's.

#[path = "format/example.rs"]
mod example;
#[path = "format/items.rs"]
mod items;
#[path = "format/page.rs"]
mod page;
#[path = "format/refusals.rs"]
mod refusals;
