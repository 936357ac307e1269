//! Stands in for the other side of an execution, which `exec` names and the runner never uses.

pub struct Peer;
