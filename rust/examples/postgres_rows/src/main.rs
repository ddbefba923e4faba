//! Rows in PostgreSQL, and the tree of their digests in memory: `postgres_rows CONFIG ADDRESS`. table.rs has the rows, and
//! ../rows_service what the service does.
#[path = "../../rows_service/mod.rs"]
mod rows_service;
mod table;

fn main() -> rows_service::Result<()> {
    rows_service::run("postgres_rows CONFIG ADDRESS")
}
