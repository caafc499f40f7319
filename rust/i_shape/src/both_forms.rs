//! Calls in two forms: one returns a `Result`, the other panics with the error's text.

/// Writes both forms of each call. The docs before the first name are those of both forms. The docs
/// before the second name are the section `Errors` of the form that returns a `Result`:
///
/// ```text
/// both_forms! {
///     /// Returns twice the area.
///     area_two, must_use;
///     /// Returns [`Error::NoPoint`] if there is no point.
///     fn try_area_two(&self) -> Result<I::Wide, Error>;
/// }
/// ```
///
/// A `;` in place of the body makes it a required method of a trait. Type parameters go into
/// square brackets. A constructor returns `Result<Self, Error>`. With `must_use` the compiler warns
/// where the result of the form that panics isn't used; each `Result` has such a warning.
macro_rules! both_forms {
    () => {};
    (
        $(#[$both:meta])* $panics:ident $(, $must_use:ident)?;
        $(#[$first:meta])* $visibility:vis fn $tries:ident $([$($generics:tt)*])?
            (&mut $this:ident $($arguments:tt)*) -> Result<$answer:ty, Error> $body:tt
        $($rest:tt)*
    ) => {
        both_forms!(@method [$(#[$both])*] [$(#[$first])*] [$visibility] [$(#[$must_use])?] $panics $tries
            [&mut $this] $this [$($($generics)*)?] [$($arguments)*] [$answer] $body);
        both_forms!($($rest)*);
    };
    (
        $(#[$both:meta])* $panics:ident $(, $must_use:ident)?;
        $(#[$first:meta])* $visibility:vis fn $tries:ident(&$this:ident $($arguments:tt)*)
            -> Result<$answer:ty, Error> $body:tt
        $($rest:tt)*
    ) => {
        both_forms!(@method [$(#[$both])*] [$(#[$first])*] [$visibility] [$(#[$must_use])?] $panics $tries
            [&$this] $this [] [$($arguments)*] [$answer] $body);
        both_forms!($($rest)*);
    };
    (
        $(#[$both:meta])* $panics:ident $(, $must_use:ident)?;
        $(#[$first:meta])* $visibility:vis fn $tries:ident $([$($generics:tt)*])?
            ($($argument:ident: $type:ty),* $(,)?) -> Result<Self, Error> $body:tt
        $($rest:tt)*
    ) => {
        both_forms!(@forms [$(#[$both])*] [$(#[$first])*] [$visibility] [$(#[$must_use])?] $panics $tries
            "Self::" [Self::$tries] [$($($generics)*)?] [] [$($argument: $type),*] [$($argument),*] [Self] $body);
        both_forms!($($rest)*);
    };
    (
        $(#[$both:meta])* $panics:ident $(, $must_use:ident)?;
        $(#[$first:meta])* $visibility:vis fn $tries:ident $([$($generics:tt)*])?
            ($($argument:ident: $type:ty),* $(,)?) -> Result<$answer:ty, Error> $body:tt
        $($rest:tt)*
    ) => {
        both_forms!(@forms [$(#[$both])*] [$(#[$first])*] [$visibility] [$(#[$must_use])?] $panics $tries
            "" [$tries] [$($($generics)*)?] [] [$($argument: $type),*] [$($argument),*] [$answer] $body);
        both_forms!($($rest)*);
    };
    (
        $(#[$both:meta])* $panics:ident $(, $must_use:ident)?;
        $(#[$first:meta])* $visibility:vis fn $tries:ident($this:ident $($arguments:tt)*)
            -> Result<$answer:ty, Error> $body:tt
        $($rest:tt)*
    ) => {
        both_forms!(@method [$(#[$both])*] [$(#[$first])*] [$visibility] [$(#[$must_use])?] $panics $tries
            [$this] $this [] [$($arguments)*] [$answer] $body);
        both_forms!($($rest)*);
    };
    (
        @method $both:tt $first:tt $visibility:tt $must_use:tt $panics:ident $tries:ident
        [$($receiver:tt)*] $this:ident $generics:tt [$(, $argument:ident: $type:ty)* $(,)?] $answer:tt $body:tt
    ) => {
        both_forms!(@forms $both $first $visibility $must_use $panics $tries "Self::" [$this.$tries]
            $generics [$($receiver)*,] [$($argument: $type),*] [$($argument),*] $answer $body);
    };
    (
        @forms [$($both:tt)*] [$($first:tt)*] [$visibility:vis] [$($must_use:tt)*]
        $panics:ident $tries:ident $within:literal [$($call:tt)*] [$($generics:tt)*]
        [$($receiver:tt)*] [$($parameters:tt)*] [$($arguments:tt)*] [$answer:ty] $body:tt
    ) => {
        $($both)*
        ///
        /// # Errors
        ///
        $($first)*
        $visibility fn $tries<$($generics)*>($($receiver)* $($parameters)*) -> Result<$answer, Error> $body

        $($both)*
        ///
        /// # Panics
        ///
        #[doc = concat!("If [`", $within, stringify!($tries), "`] returns an error, with the error's text.")]
        #[track_caller]
        $($must_use)*
        $visibility fn $panics<$($generics)*>($($receiver)* $($parameters)*) -> $answer {
            $crate::error::answered($($call)*($($arguments)*))
        }
    };
}

pub(crate) use both_forms;
