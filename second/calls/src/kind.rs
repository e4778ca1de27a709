//! The calls, and for each the causes by which it may be refused.

use second::calls::Cause::{self, *};

/// A function of the interface for C.
#[derive(Clone, Copy, Debug, PartialEq, Eq, PartialOrd, Ord)]
pub enum Kind {
    ReadJob,
    SetLock,
    Strips,
    Stretch,
    StretchRefusal,
    Rebuild,
    NoFitRow,
    NoFitColumn,
    SharesPixel,
    Depth,
    Penalty,
    WeightedSum,
    PlainSum,
    UsedLength,
    Preview,
    Check,
    Start,
    Compact,
    WriteLayout,
    ReadLayout,
    CutLines,
    CutStep,
    LineStep,
    LineSearch,
    Descent,
    GuidedRun,
    Program,
    Fresh,
    Lay,
    Withdraw,
}

/// The causes of a lent job.
const JOB: [Cause; 11] = [
    LentSheet, LentCount, LentGap, LentTable, LentBox, LentTurns, LentLock, LentAreas, LentPixels,
    LentPixel, LentLoose,
];

impl Kind {
    /// All calls, in the header's order.
    pub const ALL: [Kind; 30] = {
        use Kind::*;
        [
            ReadJob,
            SetLock,
            Strips,
            Stretch,
            StretchRefusal,
            Rebuild,
            NoFitRow,
            NoFitColumn,
            SharesPixel,
            Depth,
            Penalty,
            WeightedSum,
            PlainSum,
            UsedLength,
            Preview,
            Check,
            Start,
            Compact,
            WriteLayout,
            ReadLayout,
            CutLines,
            CutStep,
            LineStep,
            LineSearch,
            Descent,
            GuidedRun,
            Program,
            Fresh,
            Lay,
            Withdraw,
        ]
    };

    /// The calls that find a no-fit line.
    pub const NO_FIT_LINES: [Kind; 2] = [Kind::NoFitRow, Kind::NoFitColumn];

    /// Whether the call is lent a job.
    pub fn is_lent_a_job(self) -> bool {
        !matches!(
            self,
            Kind::ReadJob | Kind::Rebuild | Kind::Program | Kind::LineStep
        )
    }

    /// Whether the call is lent a workspace.
    pub fn has_workspace(self) -> bool {
        matches!(self, Kind::Descent | Kind::GuidedRun | Kind::Program)
    }

    /// The causes of the call itself, those of a lent job left out.
    fn own_causes(self) -> &'static [Cause] {
        match self {
            Kind::ReadJob => &[
                Form,
                TextNumber,
                SheetArea,
                BoxAreas,
                LooseBox,
                BoxAboveSheet,
                BufferShort,
            ],
            Kind::SetLock => &[Station, NoPiece, NotTheCutter],
            Kind::Strips => &[TurnsLength, Turn, BufferShort],
            Kind::Stretch | Kind::StretchRefusal => &[NoPiece, TurnsLength, Turn, Store],
            Kind::Rebuild => &[Side, Strips, BufferShort],
            Kind::NoFitRow | Kind::NoFitColumn => &[NoPiece, Turn, Stretch, BufferShort],
            Kind::SharesPixel | Kind::Depth | Kind::Penalty => {
                &[LayoutLength, NoPiece, SamePiece, LayoutTurn, Outside]
            }
            Kind::WeightedSum => &[LayoutLength, WeightsLength, Weight, LayoutTurn, Outside],
            Kind::PlainSum | Kind::UsedLength => &[LayoutLength, LayoutTurn, Outside],
            Kind::Preview => &[
                LayoutLength,
                WeightsLength,
                Weight,
                NoPiece,
                Turn,
                LayoutTurn,
                Outside,
                NewOutside,
            ],
            Kind::Check | Kind::Compact => &[LayoutLength, LayoutTurn, Outside, Conflict],
            Kind::Start => &[LayoutLength, LockedTurn, LockedOutside],
            Kind::WriteLayout => &[LayoutLength, LayoutTurn, Outside, BufferShort],
            Kind::ReadLayout => &[Form, TextNumber, Turn, Outside, LayoutLength],
            Kind::CutLines => &[LayoutLength, LayoutTurn, Outside, Conflict, BufferShort],
            Kind::CutStep => &[LayoutLength, Pitch, LayoutTurn, Outside, Conflict],
            Kind::LineStep => &[Pitch],
            Kind::LineSearch => &[
                LayoutLength,
                WeightsLength,
                Weight,
                NoPiece,
                Turn,
                LayoutTurn,
                Outside,
                NoPlace,
            ],
            Kind::Descent => &[
                LayoutLength,
                WeightsLength,
                Weight,
                Budget,
                LayoutTurn,
                Outside,
            ],
            Kind::GuidedRun => &[
                LayoutLength,
                WeightsLength,
                Weight,
                Budget,
                Rounds,
                LayoutTurn,
                Outside,
            ],
            Kind::Program => &[BufferShort],
            Kind::Fresh => &[CountsLength],
            Kind::Lay => &[CountsLength, Record, Counts, NoPiece, Turn, Laid, Outside],
            Kind::Withdraw => &[CountsLength, Record, Counts, NoPiece, NotLaid, Locked],
        }
    }

    /// Every cause by which the call may be refused.
    pub fn causes(self) -> Vec<Cause> {
        let job: &[Cause] = if self.is_lent_a_job() { &JOB } else { &[] };
        [job, self.own_causes()].concat()
    }
}
