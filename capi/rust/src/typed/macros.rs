//! The macro `select!`.

/// Waits on several sends and receives of bound ends, makes one of them, and runs its arm, as crossbeam's `select!` does.
///
/// Each arm but the default names a bound end. The select acts as the process to whose seat the first of these ends is bound.
/// Behind the arrow `->` stands a pattern for the result:
///
/// - `recv(receiver) -> value => ..` gets what [`recv`](crate::typed::BoundReceiver::recv) returns.
/// - `send(sender, value) -> sent => ..` gets what [`send`](crate::typed::BoundSender::send) returns. The value is made before
///   the select, and is dropped if another case fires. A [`Select`](crate::typed::Select) leaves it in its option instead.
/// - `default => ..` runs if no case can proceed at once.
/// - `default(timeout) => ..` runs if none can for so long. It needs a hub with [timeouts](crate::Builder::timeouts).
///
/// The default stands last. An arm ends with a comma, which may be left out behind a block. If several cases can proceed, a
/// random one of them fires.
///
/// The macro is a `Result` of what the arm returns. If no arm ran, it is the [`Ended`](crate::Ended) for which
/// [`Select::select`](crate::typed::Select::select) fails, such as a stall, and no value was sent. So a `?` usually follows.
///
/// # Examples
///
/// ```
/// use chanhub::{select, typed, Ended, Hub};
/// use std::time::Duration;
///
/// # let (_hub, mut seats) = Hub::builder(1).timeouts().open().unwrap();
/// # let seat = seats.remove(0);
/// let (numbers, from_numbers) = typed::channel::<u64>(&seat, 1)?;
/// let (words, from_words) = typed::channel::<String>(&seat, 1)?;
/// let (from_numbers, from_words) = (from_numbers.bind(&seat), from_words.bind(&seat));
/// let numbers = numbers.bind(&seat);
///
/// let mut came = Vec::new();
/// for _ in 0..3 {
///     select! {
///         recv(from_words) -> word => came.push(word?),
///         recv(from_numbers) -> number => came.push(number?.to_string()),
///         default(Duration::from_millis(5)) => {
///             came.push("nothing".to_string());
///             numbers.send(7)?;
///         }
///     }?;
/// }
/// assert_eq!(came, ["nothing", "7", "nothing"]);
/// # drop(words);
/// # Ok::<(), Ended>(())
/// ```
#[macro_export]
macro_rules! select {
    // @arms [what was read] what is left. Each end and each value gets a name of its own, which is no other's.
    (@arms $read:tt recv($receiver:expr) -> $result:pat => $body:block $(,)? $($rest:tt)*) => {
        $crate::select!(@recv $read $receiver, $result, $body, $($rest)*)
    };
    (@arms $read:tt recv($receiver:expr) -> $result:pat => $body:expr $(, $($rest:tt)*)?) => {
        $crate::select!(@recv $read $receiver, $result, $body, $($($rest)*)?)
    };
    (@arms $read:tt send($sender:expr, $value:expr) -> $result:pat => $body:block $(,)? $($rest:tt)*) => {
        $crate::select!(@send $read $sender, $value, $result, $body, $($rest)*)
    };
    (@arms $read:tt send($sender:expr, $value:expr) -> $result:pat => $body:expr $(, $($rest:tt)*)?) => {
        $crate::select!(@send $read $sender, $value, $result, $body, $($($rest)*)?)
    };
    (@arms $read:tt default => $body:expr $(,)?) => {
        $crate::select!(@made $read select { select.try_select() } $body)
    };
    (@arms $read:tt default($timeout:expr) => $body:expr $(,)?) => {
        $crate::select!(@made $read select { select.select_within($timeout) } $body)
    };
    (@arms $read:tt) => {
        $crate::select!(@made $read select { select.select().map(Some) } unreachable!("a case fires"))
    };
    (@arms $read:tt $($other:tt)+) => {
        compile_error!(concat!("this is no arm of a select: ", stringify!($($other)+)))
    };
    (@recv [$($read:tt)*] $receiver:expr, $result:pat, $body:expr, $($rest:tt)*) => {
        match &$receiver {
            end => $crate::select!(@arms [$($read)* (recv(end) $result, $body)] $($rest)*),
        }
    };
    (@send [$($read:tt)*] $sender:expr, $value:expr, $result:pat, $body:expr, $($rest:tt)*) => {
        match (&$sender, &mut Some($value)) {
            (end, value) => $crate::select!(@arms [$($read)* (send(end, value) $result, $body)] $($rest)*),
        }
    };

    // @made [the arms] the name of the select, the call, the default.
    (@made [] $($rest:tt)*) => {
        compile_error!("a select needs a case: recv(..) or send(..)")
    };
    (@made [$(($kind:ident($end:ident $(, $value:ident)?) $result:pat, $body:expr))+]
            $select:ident $call:block $default:expr) => {{
        let mut $select = $crate::typed::Select::new($crate::select!(@first $($end)+).seat());
        $($select.$kind($end $(, &mut *$value)?);)+
        #[allow(unreachable_code, clippy::diverging_sub_expression)] // an arm may leave the function or a loop
        let told = match $call {
            Ok(Some(fired)) => Ok($crate::select!(@fired fired, 0; $(($kind($end $(, $value)?) $result, $body))+)),
            Ok(None) => Ok($default),
            Err(ended) => Err(ended),
        };
        told
    }};
    (@first $end:ident $($ends:ident)*) => {
        $end
    };

    // @fired the case that fired, the index of the next arm; the arms from there on.
    (@fired $fired:ident, $index:expr; (recv($end:ident) $result:pat, $body:expr) $($arms:tt)*) => {
        if $fired.index() == $index {
            let $result = $fired.recv($end);
            $body
        } else {
            $crate::select!(@fired $fired, $index + 1; $($arms)*)
        }
    };
    (@fired $fired:ident, $index:expr; (send($end:ident, $value:ident) $result:pat, $body:expr) $($arms:tt)*) => {
        if $fired.index() == $index {
            let $result = $fired.send($end).map_err(|ended| {
                let value = $value.take().expect("a value that is not sent comes back");
                $crate::typed::SendError { value, ended }
            });
            $body
        } else {
            $crate::select!(@fired $fired, $index + 1; $($arms)*)
        }
    };
    (@fired $fired:ident, $index:expr;) => {
        unreachable!("one of the cases fired")
    };

    ($($arms:tt)*) => {
        $crate::select!(@arms [] $($arms)*)
    };
}
