//! What the header of a key store says, in words and for machines.

use std::io::Write;

use super::super::Status;
use super::super::failure::Failure;
use super::super::item::{entry_length, filler_length, restart_length};
use super::super::json::Value;
use super::super::store::{Header, chunks, is_burned};
use super::super::text::{counted, grouped, hexadecimal, wrapped};

pub fn dump(store: &[u8], json: bool, out: &mut dyn Write) -> Result<Status, Failure> {
    let header = Header::read(store).map_err(|wrong| format!("Damaged: the store {wrong}."));
    let text = match &header {
        _ if json => format!("{}\n", object(&header, store)),
        Ok(header) => words(header, store),
        Err(damage) => wrapped("", damage),
    };
    out.write_all(text.as_bytes())?;
    match header {
        Ok(_) => Ok(Status::Done),
        Err(_) => Ok(Status::Refused),
    }
}

/// Members that do not apply are null.
fn object(header: &Result<Header, String>, store: &[u8]) -> Value {
    let damage = header.as_ref().err().map(String::as_str);
    let header = header.as_ref().ok();
    let id = header.map(|header| hexadecimal(&header.id));
    let burned = header.map(|_| burned(store) as u64);
    let set = header.map(|header| header.set().json());
    Value::Object(vec![
        ("content", Value::text("store")),
        ("kind", Value::number(header.map(Header::kind))),
        ("id", id.map_or(Value::Null, Value::Text)),
        ("phases", Value::number(header.map(|header| header.phases))),
        ("chunks", Value::number(header.map(|header| header.chunks))),
        ("burned", Value::number(burned)),
        (
            "ratchet",
            Value::number(header.map(|header| header.ratchet)),
        ),
        ("set", set.unwrap_or(Value::Null)),
        ("detail", damage.map_or(Value::Null, Value::text)),
    ])
}

/// A line for the store, and one for each field.
fn words(header: &Header, store: &[u8]) -> String {
    let rows = rows(header, store).map(|(name, value)| format!("  {name:<12}  {value}\n"));
    let length = counted(store.len(), "byte");
    format!(
        "Key store of kind {}, {length}.\n\n{}",
        header.kind(),
        rows.concat()
    )
}

fn rows(header: &Header, store: &[u8]) -> [(&'static str, String); 7] {
    let (chunks, set) = (header.chunks as usize, header.set());
    let ratchet = format!(
        "{} from each chunk, {} in all",
        counted(header.ratchet as usize, "key"),
        grouped(header.keys_of(chunks) as u64)
    );
    let tag_length = format!(
        "{} bytes; an entry takes {} bytes, a filler {}, a restart {}",
        set.tag_length,
        entry_length(set),
        filler_length(set),
        restart_length(set)
    );
    let log_capacity = format!(
        "{} bytes; the log memory takes {}",
        grouped(set.log_capacity.into()),
        grouped(header.log_memory_length() as u64)
    );
    let burned = burned(store);
    [
        ("id", hexadecimal(&header.id)),
        ("phases", header.phases.to_string()),
        (
            "chunks",
            format!(
                "{}, {} of them burned",
                grouped(chunks as u64),
                grouped(burned as u64)
            ),
        ),
        ("ratchet", ratchet),
        ("tag length", tag_length),
        ("data limit", counted(set.data_limit as usize, "byte")),
        ("log capacity", log_capacity),
    ]
}

/// How many chunks of a well-formed store are burned, wherever they stand.
fn burned(store: &[u8]) -> usize {
    chunks(store).filter(|chunk| is_burned(chunk)).count()
}
