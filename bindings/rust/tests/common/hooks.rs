//! Tests over managers with hooks and without.

/// Makes two tests of each function: over a manager whose hooks `activate` and `passivate` are called, and over one without them.
macro_rules! with_and_without_hooks {
    ($($name:ident)*) => {
        $(mod $name {
            #[test]
            fn with_hooks() {
                super::$name::<true>()
            }

            #[test]
            fn without_hooks() {
                super::$name::<false>()
            }
        })*
    };
}
