//! How functions of include/crondelith.h that take the three tables are declared and called.

/// Declares such functions, in a module `c`: each takes the tables first, every one as pointer (`const` where they are only
/// read, else `mut`) and length, and then these arguments.
macro_rules! declare_on_tables {
    ($access:tt -> $answer:ident; $($function:ident($($argument:ident: $type:ty),+);)+) => {
        mod c {
            extern "C" {
                $(pub fn $function(
                    connections: *$access u8,
                    connections_length: usize,
                    leases: *$access u8,
                    leases_length: usize,
                    allowances: *$access u8,
                    allowances_length: usize,
                    $($argument: $type),+
                ) -> super::$answer;)+
            }
        }
    };
}

/// Calls a function declared so, on tables of which `$pointer` gives the pointers.
///
/// SAFETY of every call: each pointer and length are those of a slice borrowed for the call, so the memory is there, and
/// a `&mut` slice overlaps nothing else. The functions are total, stay within the lengths they are given and keep no
/// pointer, and those that are lent shared slices only read, as proved of them. That the declarations are the header's is
/// what the tests of `compare` show, by calling each function with every kind of argument.
macro_rules! call_on_tables {
    ($function:ident, $tables:ident.$pointer:ident, $($argument:expr),+) => {
        unsafe {
            c::$function(
                $tables.connections.$pointer(),
                $tables.connections.len(),
                $tables.leases.$pointer(),
                $tables.leases.len(),
                $tables.allowances.$pointer(),
                $tables.allowances.len(),
                $($argument),+
            )
        }
    };
}
