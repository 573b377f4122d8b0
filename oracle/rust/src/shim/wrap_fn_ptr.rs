/// A module of the function's name with `Fn`, its function pointer.
macro_rules! wrap_fn_ptr {
    ($vis:vis unsafe extern "C" fn $name:ident($($arg:ident: $T:ty,)*) -> $R:ty) => {
        $vis mod $name {
            use super::*;

            pub type FnPtr = unsafe extern "C" fn($($arg: $T,)*) -> $R;

            pub struct Fn(FnPtr);

            impl Fn {
                pub const fn new(fn_ptr: FnPtr) -> Self {
                    Self(fn_ptr)
                }

                pub const fn get(&self) -> FnPtr {
                    self.0
                }
            }
        }
    };
}
pub(crate) use wrap_fn_ptr;
