//! Contexts.

/// A time and a place: a minute of the day (0 to 1439), a day of the week (0
/// to 6), a zone (0 to 255) and a date (0 to 65535), which counts days as the
/// base's users' first and last days do. Any numbers can be handed in: those
/// out of range get [`Refusal::Context`](crate::Refusal::Context).
///
/// Which policies are active doesn't depend on the date; who may approve does.
/// So there is no default date, and a context of minute, day and zone alone
/// doesn't compile:
///
/// ```compile_fail,E0061
/// let noon = release::Context::new(720, 0, 0);
/// ```
///
/// ```compile_fail,E0063
/// let noon = release::Context { minute: 720, day: 0, zone: 0 };
/// ```
///
/// Each place that the compiler shows has to say which date it means.
#[derive(Clone, Copy, Debug, PartialEq, Eq, Hash)]
pub struct Context {
    /// The minute of the day, 0 to 1439.
    pub minute: u32,
    /// The day of the week, 0 to 6.
    pub day: u32,
    /// The zone, 0 to 255.
    pub zone: u32,
    /// The date, 0 to 65535: the number of a day, as a user's first and last day
    /// are.
    pub date: u32,
}

impl Context {
    /// A context by its minute of the day, its day of the week, its zone and its
    /// date, in this order. The fields written out say the same, and name each
    /// number.
    ///
    /// ```
    /// use release::Context;
    ///
    /// let noon = Context::new(720, 6, 1, 900);
    /// let (minute, day, zone, date) = (720, 6, 1, 900);
    /// assert_eq!(noon, Context { minute, day, zone, date });
    /// ```
    pub fn new(minute: u32, day: u32, zone: u32, date: u32) -> Context {
        Context {
            minute,
            day,
            zone,
            date,
        }
    }
}
