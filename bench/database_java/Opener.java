import java.util.concurrent.TimeUnit;

/** Opens a kind of pool of connections. Its connections do not commit by themselves, and each is tested before it is lent. */
interface Opener {
    /** How many connections a pool has. */
    int CONNECTIONS = 4;
    /** No worker waits as long for a connection, in milliseconds. */
    long LONGEST_WAIT = TimeUnit.SECONDS.toMillis(60);

    /** Opens a pool over a database. */
    Lender open(String url) throws Exception;
}
