//! A transfer between two accounts in PostgreSQL, as that of the example `postgres.rs` of the crate; and the test of a connection.

use tokio_postgres::{Client, Error};

const ACCOUNTS: i32 = 100;

/// The accounts of a transfer. The second has the greater id, so that no two transfers wait for each other.
fn accounts_of(number: i32) -> (i32, i32) {
    let source = number % (ACCOUNTS - 1);
    (source, source + 1 + number % (ACCOUNTS - 1 - source))
}

/// Transfers a euro in one transaction. The number chooses the accounts.
pub async fn transfer(client: &mut Client, worker: i32, number: i32) -> Result<(), Error> {
    let (source, target) = accounts_of(number);
    let transaction = client.transaction().await?;
    let note = "INSERT INTO transfer VALUES ($1, $2, $3, 1)";
    transaction
        .execute(note, &[&worker, &source, &target])
        .await?;
    let change = "UPDATE account SET euros = euros + $1 WHERE id = $2";
    transaction.execute(change, &[&-1, &source]).await?;
    transaction.execute(change, &[&1, &target]).await?;
    transaction.commit().await
}

/// Asks for an answer, which shows that the server is there.
pub async fn test(client: &Client) -> Result<(), Error> {
    client.simple_query("").await.map(drop)
}
