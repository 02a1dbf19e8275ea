//! The refusals, by their names and numbers.

use core::fmt;

/// Why something was refused, or a run stopped. As a number it is the one that answers and entries give; displayed, it
/// says what it is.
///
/// ```
/// use yirbarn::Refusal;
///
/// assert_eq!(Refusal::of(11), Some(Refusal::Dead));
/// assert_eq!(Refusal::Dead as u8, 11);
/// assert_eq!(Refusal::of(0), None);
/// assert_eq!((Refusal::of(17), Refusal::of(19)), (None, Some(Refusal::Caller)));
/// for refusal in Refusal::ALL {
///     println!("{refusal}");
/// }
/// assert_eq!(format!("{}", Refusal::Dead), "the entity is not live (11)");
/// ```
#[derive(Clone, Copy, PartialEq, Eq, Debug)]
#[repr(u8)]
pub enum Refusal {
    Size = 1,
    Short = 2,
    Unsound = 3,
    Unknown = 4,
    Cut = 5,
    NoRoom = 6,
    Kind = 7,
    Kinds = 8,
    Again = 9,
    Handful = 10,
    Dead = 11,
    Full = 12,
    Wide = 13,
    Clash = 14,
    Many = 15,
    Beyond = 16,
    Caller = 19,
}

impl Refusal {
    pub const ALL: [Refusal; 17] = {
        use Refusal::*;
        [
            Size, Short, Unsound, Unknown, Cut, NoRoom, Kind, Kinds, Again, Handful, Dead, Full, Wide, Clash, Many,
            Beyond, Caller,
        ]
    };

    /// The refusal with this number; 0, which says that nothing was refused, 17, 18 and numbers above 19 are none.
    pub fn of(number: u8) -> Option<Refusal> {
        Refusal::ALL.into_iter().find(|&refusal| refusal as u8 == number)
    }

    fn text(self) -> &'static str {
        match self {
            Refusal::Size => "entities not 1 to 4,096, kinds not 1 to 128, or another width of values",
            Refusal::Short => "too few words",
            Refusal::Unsound => "the words hold no sound store",
            Refusal::Unknown => "a byte that is no command",
            Refusal::Cut => "the tape ends within a command",
            Refusal::NoRoom => "no room for the answer, the roll or the copy",
            Refusal::Kind => "a kind above 127, or not registered",
            Refusal::Kinds => "as many kinds are registered as the store takes",
            Refusal::Again => "the kind is in the list already",
            Refusal::Handful => "the list has 16 kinds",
            Refusal::Dead => "the entity is not live",
            Refusal::Full => "no index is left, or for a tray too few",
            Refusal::Wide => "a group of more than 16 kinds",
            Refusal::Clash => "the group shares kinds with more than one family, or with one that it is no chain with",
            Refusal::Many => "the draft has 64 groups",
            Refusal::Beyond => "rows that are not there",
            Refusal::Caller => "a caller above 15",
        }
    }
}

impl fmt::Display for Refusal {
    fn fmt(&self, f: &mut fmt::Formatter<'_>) -> fmt::Result {
        write!(f, "{} ({})", self.text(), *self as u8)
    }
}

impl core::error::Error for Refusal {}
