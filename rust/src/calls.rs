//! The twenty-one calls of the library, on slices. Each returns its number, or its numbers in one word or two.

/// What a call returns: a word, or what it says.
macro_rules! returned {
    () => {
        u32
    };
    ($wide:ty) => {
        $wide
    };
}

/// Declares calls under their C names, and makes of each a function on slices: the state that it is lent, inputs and numbers that it takes and
/// an input behind these, if any, outputs, the word for a count or a yes that it hands out, if it does, and working buffer.
macro_rules! calls {
    ($($name:ident = $symbol:ident(
        $(&$state:ident)? $($input:ident),* $(; $($number:ident),+ $(; $last:ident)?)?
    ) -> $($out:ident),* $(&$count:ident)? $(as $wide:ty)?;)+) => {
        mod library {
            extern "C" {
                $(pub fn $symbol(
                    $($state: *mut u32,)?
                    $($input: *const u8, _: usize,)*
                    $($($number: u32,)+ $($last: *const u8, _: usize,)?)?
                    $($out: *mut u8, _: usize,)*
                    $($count: *mut u32,)?
                    work: *mut u8, _: usize,
                ) -> returned!($($wide)?);)+
            }
        }
        $(#[allow(clippy::too_many_arguments)] // as many as the C call has
        pub fn $name(
            $($state: &mut u32,)?
            $($input: &[u8],)*
            $($($number: u32,)+ $($last: &[u8],)?)?
            $($out: &mut [u8],)*
            $($count: &mut u32,)?
            work: &mut [u8],
        ) -> returned!($($wide)?) {
            // The pointers and lengths come from references, so they are valid, and the mutable ones are disjoint from all others.
            unsafe {
                library::$symbol(
                    $($state,)?
                    $($input.as_ptr(), $input.len(),)*
                    $($($number,)+ $($last.as_ptr(), $last.len(),)?)?
                    $($out.as_mut_ptr(), $out.len(),)*
                    $($count,)?
                    work.as_mut_ptr(), work.len(),
                )
            }
        })+
    };
}

calls! {
    old_search = mowqachi_old_search(whole, path) -> out;
    old_search_grouped = mowqachi_old_search_grouped(whole, groups, path) -> out;
    cut = mowqachi_cut(whole, cuts; site) -> out;
    first_reply = mowqachi_first_reply(part, path) -> out;
    first_reply_grouped = mowqachi_first_reply_grouped(part, groups, path) -> out;
    four_replies = mowqachi_four_replies(part, paths) -> out1, out2, out3, out4;
    four_replies_grouped = mowqachi_four_replies_grouped(part, groups, paths) -> out1, out2, out3, out4;
    eight_replies = mowqachi_eight_replies(part, paths) -> out as u64;
    eight_replies_grouped = mowqachi_eight_replies_grouped(part, groups, paths) -> out as u64;
    call_list = mowqachi_call_list(bundle) -> out;
    second_reply = mowqachi_second_reply(part, path, calls) -> out;
    second_reply_grouped = mowqachi_second_reply_grouped(part, groups, path, calls) -> out;
    join = mowqachi_join(bundle) -> out;
    dearest = mowqachi_dearest(; doors, targets, labels) -> part, path;
    generate = mowqachi_generate(&state; nodes, edges) -> out;
    from_triples = mowqachi_from_triples(triples) -> out;
    to_triples = mowqachi_to_triples(whole) -> out &count;
    walk = mowqachi_walk(whole, path; node) -> out;
    walk_grouped = mowqachi_walk_grouped(whole, groups, path; node) -> out;
    check_walk = mowqachi_check_walk(whole, path; node; walk) -> &yes;
    check_walk_grouped = mowqachi_check_walk_grouped(whole, groups, path; node; walk) -> &yes;
}
