//! The report on a module.

use crate::bounds::Bounds;
use crate::diagnostics::Diagnostic;
use crate::error::Error;
use crate::info::ModuleInfo;
use crate::json::{parse, read_members, Value, Wrong};
use crate::layouts::{Layout, LayoutError};
use crate::refusal::{ModuleFault, Place, Refusal};
use crate::resources::Resources;
use pethuvazh_sys::report_status::{ACCEPTED, REFUSED};

/// The first number of the version of the format that is read. A change of the second one adds members, which are skipped.
const FORMAT: &str = "1";

/// The report on a module.
#[derive(Clone, Debug, PartialEq, Eq)]
#[non_exhaustive]
pub struct Report {
    /// The version of the format of the text, as `1.0`.
    pub version: String,
    /// Whether the module is accepted, and what the analysis found.
    pub outcome: Outcome,
    /// The errors. There are none if the module is accepted.
    pub diagnostics: Vec<Diagnostic>,
    /// The line of JSON from which all of this was read.
    pub text: String,
}

/// Whether a module is accepted, and what the analysis found.
#[derive(Clone, Debug, PartialEq, Eq)]
#[non_exhaustive]
pub enum Outcome {
    /// The module has no fault, and each type has a layout.
    Accepted(Analysis),
    /// The only fault is that control flow isn't uniform where it must be, by the rules of WGSL.
    #[non_exhaustive]
    NonUniform {
        /// The first function or entry point with a violation.
        place: Place,
        /// What is reported of an accepted module, too.
        analysis: Analysis,
    },
    /// The analysis found a fault.
    #[non_exhaustive]
    Refused {
        /// The first place with a fault, and a fault there.
        refusal: Refusal,
        /// The layout of each type, or the first type without one.
        layouts: Result<Vec<Layout>, LayoutError>,
    },
    /// A type has no layout, and the analysis found no fault.
    #[non_exhaustive]
    NoLayout {
        /// The first such type.
        error: LayoutError,
        /// What the analysis records.
        info: ModuleInfo,
        /// What a back end checks, if the options ask for it.
        bounds: Option<Bounds>,
    },
    /// The module isn't well formed. If it has several such faults, this is any of them.
    IllFormed(ModuleFault),
}

/// What is reported of a module whose analysis found no fault.
#[derive(Clone, Debug, PartialEq, Eq)]
#[non_exhaustive]
pub struct Analysis {
    /// The layout of each type, in order.
    pub layouts: Vec<Layout>,
    /// What the analysis records.
    pub info: ModuleInfo,
    /// What a back end checks of indexes, if the options ask for it.
    pub bounds: Option<Bounds>,
    /// What the module declares, if the options ask for it.
    pub resources: Option<Resources>,
}

/// Whether control flow is uniform where it must be.
struct UniformityVerdict {
    accepted: bool,
}
read_members!(UniformityVerdict { accepted });

/// The place of a violation of uniform control flow.
struct Violation {
    place: Place,
}
read_members!(Violation { place });

impl Report {
    /// Returns whether the module is accepted.
    #[must_use]
    pub fn is_accepted(&self) -> bool {
        matches!(self.outcome, Outcome::Accepted(_))
    }

    /// Returns the layout of each type, if each has one and the module is well formed.
    #[must_use]
    pub fn layouts(&self) -> Option<&[Layout]> {
        match &self.outcome {
            Outcome::Accepted(analysis) | Outcome::NonUniform { analysis, .. } => {
                Some(&analysis.layouts)
            }
            Outcome::Refused { layouts, .. } => layouts.as_deref().ok(),
            _ => None,
        }
    }

    /// Returns what the analysis records, if it found no fault.
    #[must_use]
    pub fn info(&self) -> Option<&ModuleInfo> {
        match &self.outcome {
            Outcome::Accepted(analysis) | Outcome::NonUniform { analysis, .. } => {
                Some(&analysis.info)
            }
            Outcome::NoLayout { info, .. } => Some(info),
            _ => None,
        }
    }

    /// Returns what a back end checks of indexes, if the options ask for it and the analysis found no fault.
    #[must_use]
    pub fn bounds(&self) -> Option<&Bounds> {
        match &self.outcome {
            Outcome::Accepted(analysis) | Outcome::NonUniform { analysis, .. } => {
                analysis.bounds.as_ref()
            }
            Outcome::NoLayout { bounds, .. } => bounds.as_ref(),
            _ => None,
        }
    }

    /// Returns what the module declares, if the options ask for it and the analysis found no fault.
    #[must_use]
    pub fn resources(&self) -> Option<&Resources> {
        match &self.outcome {
            Outcome::Accepted(analysis) | Outcome::NonUniform { analysis, .. } => {
                analysis.resources.as_ref()
            }
            _ => None,
        }
    }

    /// Reads a report from the status and the text of the library.
    pub(crate) fn read(status: u32, text: String) -> Result<Self, Error> {
        let value = parse(&text)?;
        let version = version_of(&value)?;
        let outcome = Outcome::read(&value)?;
        let wanted = match outcome {
            Outcome::Accepted(_) => (ACCEPTED, "accepted"),
            _ => (REFUSED, "refused"),
        };
        if (status, &*value.member::<String>("verdict")?) != wanted {
            return Err(Wrong::new("the verdict of this outcome and status").into());
        }
        let diagnostics = value.member("diagnostics")?;
        Ok(Report {
            version,
            outcome,
            diagnostics,
            text,
        })
    }
}

/// Returns the version of a format that is read here.
pub(crate) fn version_of(value: &Value<'_>) -> Result<String, Error> {
    let found: String = value.member("version")?;
    match found.split_once('.') {
        Some((FORMAT, _)) => Ok(found),
        _ => Err(Error::Version { found }),
    }
}

impl Outcome {
    fn read(value: &Value<'_>) -> Result<Self, Wrong> {
        if let Some(fault) = value.optional("fault")? {
            return Ok(Outcome::IllFormed(fault));
        }
        let layouts = match value.optional("layout_error")? {
            Some(error) => Err(error),
            None => Ok(value.member("layouts")?),
        };
        if let Some(refusal) = value.optional("refused")? {
            return Ok(Outcome::Refused { refusal, layouts });
        }
        let (info, bounds) = (value.member("info")?, value.optional("bounds")?);
        let layouts = match layouts {
            Ok(layouts) => layouts,
            Err(error) => {
                return Ok(Outcome::NoLayout {
                    error,
                    info,
                    bounds,
                })
            }
        };
        let analysis = Analysis {
            layouts,
            info,
            bounds,
            resources: value.optional("resources")?,
        };
        match value.optional::<UniformityVerdict>("uniformity_verdict")? {
            Some(UniformityVerdict { accepted: false }) => {
                let Violation { place } = value.member("uniformity_verdict")?;
                Ok(Outcome::NonUniform { place, analysis })
            }
            _ => Ok(Outcome::Accepted(analysis)),
        }
    }
}
