include!("../../datanode/src/inside.rs");
