/// No flag is ever looked at: the oracle has no assembly.
pub struct CpuFlags;
