//! What the load generator and the plain server both use: WebSocket frames, the opening handshake, and epoll.

pub mod epoll;
pub mod frame;
pub mod handshake;
