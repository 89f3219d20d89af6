//! What a user implements: a manager makes, tests and destroys the objects of a pool.

use std::error;
use std::future::Future;

/// Makes, activates, validates, passivates and destroys the objects of a pool.
///
/// The pool calls it without its lock, in the thread whose call needs it, so calls may take long and run in parallel. If one panics, its object
/// is destroyed, its place is freed, and the panic continues.
///
/// This one connects to a server. Its test finds out whether the server has closed a connection, which `take_error` does not notice.
///
/// ```
/// use std::io;
/// use std::net::{SocketAddr, TcpStream};
/// use zuphinka::Manager;
///
/// pub struct Connector(pub SocketAddr);
///
/// impl Manager for Connector {
///     type Object = TcpStream;
///     type Error = io::Error;
///
///     fn make(&self, _id: u64) -> io::Result<TcpStream> {
///         TcpStream::connect(self.0)
///     }
///
///     fn validate(&self, connection: &mut TcpStream) -> bool {
///         is_usable(connection).unwrap_or(false)
///     }
/// }
///
/// /// Returns whether a connection is open, and no byte waits that nobody asked for.
/// fn is_usable(connection: &TcpStream) -> io::Result<bool> {
///     connection.set_nonblocking(true)?;
///     let peeked = connection.peek(&mut [0]);
///     connection.set_nonblocking(false)?;
///     Ok(matches!(peeked, Err(error) if error.kind() == io::ErrorKind::WouldBlock))
/// }
/// ```
pub trait Manager: Send + Sync + 'static {
    /// The objects that are lent.
    type Object: Send;

    /// Why an object could not be made, activated or passivated, or did not pass a test. So each [`Error`](crate::Error) of a pool is an error of std,
    /// with this one as its source, and `pool.get()?` works in a function that fails with a `Box<dyn Error + Send + Sync>`.
    ///
    /// If all that is known is a text or such a box, [`io::Error::other`](std::io::Error::other) makes an error of it. A manager that never fails
    /// has [`Infallible`](std::convert::Infallible).
    ///
    /// ```
    /// use std::error::Error;
    /// use std::io;
    /// use zuphinka::{Manager, Pool};
    ///
    /// struct Sessions;
    ///
    /// impl Manager for Sessions {
    ///     type Object = String;
    ///     type Error = io::Error;
    ///
    ///     fn make(&self, id: u64) -> io::Result<String> {
    ///         Err(io::Error::other(format!("no session {id}")))
    ///     }
    /// }
    ///
    /// fn use_one<M: Manager>(pool: &Pool<M>) -> Result<(), Box<dyn Error + Send + Sync>> {
    ///     let _held = pool.get()?;
    ///     Ok(())
    /// }
    ///
    /// let error = use_one(&Pool::new(Sessions)?).unwrap_err();
    /// assert_eq!(error.source().unwrap().to_string(), "no session 0");
    /// # Ok::<(), zuphinka::OpenError>(())
    /// ```
    type Error: error::Error + Send + Sync + 'static;

    /// Whether [`activate`](Manager::activate) does anything. If this is false, it is never called: then a borrow of an idle object
    /// takes the pool's lock once instead of twice, unless objects are validated before they are lent (`testOnBorrow`).
    const ACTIVATES: bool = true;

    /// Whether [`passivate`](Manager::passivate) does anything. If this is false, it is never called: then a return takes the pool's
    /// lock once instead of twice, unless objects are validated at their return (`testOnReturn`).
    const PASSIVATES: bool = true;

    /// Whether `get_async` awaits the three functions below that return futures. [`Async`](crate::Async) sets it; implement
    /// [`AsyncManager`](crate::AsyncManager) instead.
    #[doc(hidden)]
    const AWAITS: bool = false;

    /// Makes an object. The id is the one that it has in the journal; ids count from 0, and none is given twice.
    ///
    /// # Errors
    ///
    /// There is no object. Its place is freed, and the call that needed it fails with [`Error::Make`](crate::Error::Make).
    fn make(&self, id: u64) -> Result<Self::Object, Self::Error>;

    /// Makes an object ready for a holder: a new one, an idle one, or one that an eviction run is to validate.
    ///
    /// # Errors
    ///
    /// The object is destroyed. A borrow then takes another one, or fails with [`Error::Activate`](crate::Error::Activate) if the
    /// object was new.
    fn activate(&self, object: &mut Self::Object) -> Result<(), Self::Error> {
        let _ = object;
        Ok(())
    }

    /// Returns whether the object can be used; otherwise it is destroyed. It is called if the settings say so: for a new object
    /// (`testOnCreate`), before one is lent (`testOnBorrow`), at its return (`testOnReturn`), and in an eviction run (`testWhileIdle`).
    fn validate(&self, object: &mut Self::Object) -> bool {
        let _ = object;
        true
    }

    /// Returns whether the object can be used, as [`validate`](Manager::validate) does, or why it cannot. The pool calls this function, which
    /// calls `validate` unless you implement it.
    ///
    /// # Errors
    ///
    /// The object cannot be used, for this reason. [`Failure::Test`](crate::Failure::Test) has it, or if the object is new, the error of the call:
    /// [`Error::CreateTest`](crate::Error::CreateTest) or [`Error::BorrowTest`](crate::Error::BorrowTest).
    fn try_validate(&self, object: &mut Self::Object) -> Result<bool, Self::Error> {
        Ok(self.validate(object))
    }

    /// Makes an object ready to be idle: one that was returned, one that was added, or one that an eviction run validated.
    ///
    /// # Errors
    ///
    /// The object is destroyed.
    fn passivate(&self, object: &mut Self::Object) -> Result<(), Self::Error> {
        let _ = object;
        Ok(())
    }

    /// Ends an object. Its place is freed once this returns or panics. It may be called while the thread panics, and then a panic of its own
    /// is ignored.
    fn destroy(&self, object: Self::Object) {
        drop(object);
    }

    #[doc(hidden)]
    fn make_async(
        &self,
        id: u64,
    ) -> impl Future<Output = Result<Self::Object, Self::Error>> + Send {
        async move { self.make(id) }
    }

    #[doc(hidden)]
    fn activate_async(
        &self,
        object: &mut Self::Object,
    ) -> impl Future<Output = Result<(), Self::Error>> + Send {
        async move { self.activate(object) }
    }

    #[doc(hidden)]
    fn try_validate_async(
        &self,
        object: &mut Self::Object,
    ) -> impl Future<Output = Result<bool, Self::Error>> + Send {
        async move { self.try_validate(object) }
    }
}
