//! The search by path: a move that gives one row one value, by making others give way.
use crate::error::{check_library, taken};
use crate::index::number;
use crate::outputs::Outputs;
use crate::{raw, Edit, Error, Index, Tables};
use std::borrow::Borrow;

/// What a search is to look for, and how far it may go.
///
/// ```
/// use turepawon::Request;
/// let request = Request { displacement: true, ..Request::new(2, 0, 3) };
/// assert_eq!((request.limit, request.budget), (None, None));
/// ```
#[derive(Clone, Copy, Debug, PartialEq, Eq, Hash)]
pub struct Request {
    /// The row that is to get the value.
    pub row: usize,
    /// The value.
    pub value: usize,
    /// How many rows deep others may be asked to give way: at most 8.
    pub depth: usize,
    /// Whether rows that are not required may be emptied.
    pub displacement: bool,
    /// How many candidates of a row are offered; `None` is all.
    pub limit: Option<usize>,
    /// After how many asks it stops; `None` is never. At depth 8 with 64 candidates a row that can be ten days and more: see [`ask_ceiling`].
    pub budget: Option<usize>,
}

impl Request {
    /// Without displacement, limit and budget.
    #[must_use]
    pub const fn new(row: usize, value: usize, depth: usize) -> Request {
        Request { row, value, depth, displacement: false, limit: None, budget: None }
    }
    fn cells(self) -> raw::Request {
        raw::Request {
            row: self.row,
            value: number(Some(self.value)),
            depth: self.depth,
            displacement: u8::from(self.displacement),
            limit: self.limit.unwrap_or(usize::MAX),
            budget: self.budget.unwrap_or(usize::MAX),
        }
    }
}

/// What a search comes to.
#[derive(Clone, Debug, PartialEq, Eq, Hash)]
#[must_use]
pub struct Search {
    /// A move, if one is found: edits that pass the final test together, which [`Index::apply`] makes.
    pub found: Option<Vec<Edit>>,
    /// How many asks were made.
    pub asks: usize,
}

/// The most asks that a search can make at the depth, where no row offers more than so many candidates.
///
/// ```
/// use turepawon::{ask_ceiling, Refusal};
/// assert_eq!(ask_ceiling(3, 1), Ok(9));
/// assert_eq!(ask_ceiling(64, 3), Ok(532_611));
/// assert_eq!(ask_ceiling(64, 8), Ok(571_885_666_967_683));
/// assert_eq!(ask_ceiling(65, 1), Err(Refusal::Candidates.into()));
/// assert_eq!(ask_ceiling(3, 9), Err(Refusal::TooDeep.into()));
/// ```
///
/// # Errors
/// [`Error::Refused`] by `Candidates` for over 64 of them, by `TooDeep` for a depth over 8; [`Error::Library`].
pub fn ask_ceiling(candidates: usize, depth: usize) -> Result<usize, Error> {
    check_library()?;
    let mut most = 0;
    taken(raw::ask_ceiling(candidates, depth, &mut most))?;
    Ok(most)
}

impl<T: Borrow<Tables>> Index<T> {
    /// Looks for a move that gives the row the value: rows in the way are asked, one after the other and to the depth, to take another candidate.
    ///
    /// ```
    /// use turepawon::{Edit, Index, Refusal, Request, Roster, Tables};
    /// let mut board = Tables::builder(2, 2);
    /// for row in 0..2 {
    ///     board.required(row, true).candidates(row, [0, 1]);
    ///     for driver in 0..2 {
    ///         board.legal(row, driver, true).capacity(row, driver, driver);
    ///     }
    /// }
    /// let mut index = Index::build(board.build()?, &Roster::new([None, Some(0)]))?;
    /// assert_eq!(index.assignment_move_for_entity_value(Request::new(0, 0, 0))?.found, None);
    /// // driver 0 has duty 1, which driver 1 can take
    /// let search = index.assignment_move_for_entity_value(Request::new(0, 0, 1))?;
    /// assert_eq!(search.found, Some(vec![Edit::assign(1, 1), Edit::assign(0, 0)]));
    /// assert!(index.apply(&search.found.unwrap_or_default())?.is_yes());
    /// assert_eq!(index.roster(), Roster::new([Some(0), Some(1)]));
    /// assert_eq!(index.assignment_move_for_entity_value(Request::new(0, 0, 9)), Err(Refusal::TooDeep.into()));
    /// # Ok::<(), turepawon::Error>(())
    /// ```
    ///
    /// # Errors
    /// [`Error::Refused`] by `TooDeep`, for a depth over 8.
    pub fn assignment_move_for_entity_value(&self, request: Request) -> Result<Search, Error> {
        let mut out = Outputs::new(self.tables().rows());
        let mut asks = 0;
        taken(raw::assignment_move_for_entity_value(
            self.lent(),
            &self.records,
            &self.members,
            request.cells(),
            &mut out.rows,
            &mut out.values,
            &mut out.flag,
            &mut asks,
            &mut out.count,
        ))?;
        Ok(Search { found: out.edits(), asks })
    }
}
