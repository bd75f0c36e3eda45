//! Stand-in for tonic: the envelope types and an endpoint that only remembers its address.

pub use tonic_macros::async_trait;

/// The generated code is the stand-in crate `proto`.
#[macro_export]
macro_rules! include_proto {
    ($package:literal) => {
        pub use ::proto::*;
    };
}

/// A message to a service.
pub struct Request<T>(T);

impl<T> Request<T> {
    pub fn into_inner(self) -> T {
        self.0
    }
}

/// A service's answer.
pub struct Response<T>(T);

impl<T> Response<T> {
    pub fn new(message: T) -> Self {
        Response(message)
    }

    pub fn into_inner(self) -> T {
        self.0
    }
}

/// Why a service did not answer.
#[derive(Debug)]
pub struct Status(pub String);

impl Status {
    pub fn invalid_argument(why: String) -> Self {
        Status(why)
    }
}

pub mod transport {
    //! Where messages would go.

    use std::convert::Infallible;
    use std::time::Duration;

    /// The connection to one address.
    #[derive(Debug, Clone)]
    pub struct Channel {
        /// The address as the caller gave it.
        pub uri: String,
    }

    /// An address to connect to.
    pub struct Endpoint(Channel);

    impl Endpoint {
        pub fn from_shared(uri: String) -> Result<Self, Infallible> {
            Ok(Endpoint(Channel { uri }))
        }

        pub fn tcp_nodelay(self, _: bool) -> Self {
            self
        }

        pub fn connect_timeout(self, _: Duration) -> Self {
            self
        }

        pub fn connect_lazy(&self) -> Channel {
            self.0.clone()
        }
    }
}
