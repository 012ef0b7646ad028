//! The auditor's tool, driven over files.

#[path = "tool/audit.rs"]
mod audit;
#[path = "tool/demo.rs"]
mod demo;
#[path = "tool/dump.rs"]
mod dump;
#[path = "tool/dump_set.rs"]
mod dump_set;
#[path = "tool/dump_store.rs"]
mod dump_store;
#[path = "tool/folder.rs"]
mod folder;
#[path = "tool/item.rs"]
mod item;
#[path = "tool/material.rs"]
mod material;
#[path = "tool/names.rs"]
mod names;
#[path = "tool/numbers.rs"]
mod numbers;
#[path = "tool/output.rs"]
mod output;
#[path = "tool/pack.rs"]
mod pack;
#[path = "tool/pack_keys.rs"]
mod pack_keys;
#[path = "tool/pack_output.rs"]
mod pack_output;
#[path = "tool/plan.rs"]
mod plan;
#[path = "tool/plan_table.rs"]
mod plan_table;
#[path = "tool/plan_usage.rs"]
mod plan_usage;
#[path = "common/random.rs"]
mod random;
#[path = "tool/refusals.rs"]
mod refusals;
#[path = "tool/restarts.rs"]
mod restarts;
#[path = "tool/run.rs"]
mod run;
#[path = "tool/set_refusals.rs"]
mod set_refusals;
#[path = "tool/sets.rs"]
mod sets;
#[path = "tool/standby.rs"]
mod standby;
#[path = "tool/usage.rs"]
mod usage;
