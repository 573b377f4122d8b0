pub trait DefaultValue {
    const DEFAULT: Self;
}

pub trait EnumKey<const N: usize>: Sized {
    const VALUES: [Self; N];

    fn as_usize(self) -> usize;
}
