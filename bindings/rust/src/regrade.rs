//! Old sheets for a new buyer: a recorded tally sheet graded again under a second plan.

use crate::{ffi, outcome, Graded, Refusal};

/// Grades a recorded tally sheet again under a second plan record, into a result buffer: one result
/// record of [`RESULT_SIZE`](crate::RESULT_SIZE) bytes for each sample unit, in their order.
///
/// The second plan is exactly one plan record, of [`PLAN_SIZE`](crate::PLAN_SIZE) bytes with its mark.
/// The sheet's own plan is checked, and not graded by. As in appendix 7 of the manual:
///
/// - Every unit is graded under the second plan's designated grade, also one that failed or fails, and
///   has its record at its place. Lower grades are the second plan's, too.
/// - A break restarts; a redesignation is passed over.
/// - Two failures in a row mean nothing: there is no step 3, and recoverable is not looked at.
/// - Prerequisites and codes count as before.
///
/// The records are those of [`grade`](crate::grade). Their plan grade is the second plan's designated
/// grade throughout, and their standing [`Met`](crate::Standing::Met) or
/// [`Failed`](crate::Standing::Failed).
///
/// The sheet is refused on its own grounds, 1 to 12, first; then on
/// [`BadSecondPlan`](crate::Ground::BadSecondPlan), at offset 0; then for want of room. What is said of
/// the buffer and of refusals at [`grade`](crate::grade) holds here, too.
///
/// ```
/// use hatmuyon::{grade, regrade, Grade, Ground, Standing, PLAN_SIZE, RESULT_SIZE};
///
/// // A plan with A designated, with these T and L at A, and these at B and C, in every class; S is 0.
/// let plan = |[t, l]: [u8; 2], [lower_t, lower_l]: [u8; 2]| {
///     let mut plan = vec![0x50, 0x4C, 0];
///     plan.extend([0, 0, 0, t, 0, l].repeat(4));
///     plan.extend([0, 0, 0, lower_t, 0, lower_l].repeat(8));
///     plan
/// };
/// // Three sample units with nine, eight and three minor defects; all meet a T of 9.0.
/// let mut sheet = plan([90, 50], [90, 50]);
/// for minor in [9, 8, 3] {
///     sheet.extend([0x53, 0x55, 0, 7, 0, 0, 0, 0, 0, 0, 0, minor, 0, 0]);
/// }
/// let mut results = [0; 3 * RESULT_SIZE];
/// let graded = grade(&sheet, &mut results)?;
/// assert!(graded.records().all(|record| record.standing == Standing::Met));
///
/// // The buyer's T is 4.0 and his L 3.0.
/// let buyer = plan([40, 30], [50, 60]);
/// let graded = regrade(&sheet, &buyer, &mut results)?;
/// let standings: Vec<Standing> = graded.records().map(|record| record.standing).collect();
/// assert_eq!(standings, [Standing::Failed, Standing::Failed, Standing::Met]);
/// // Two failures in a row begin no step 3: the third unit is still under A, at 3.0 + 3 - 4.0.
/// let third = graded.records().next_back().unwrap();
/// assert_eq!((third.plan_grade, third.portion_grade), (Some(Grade::A), Grade::A));
/// assert_eq!((third.cusums, third.code_grade), ([0, 0, 0, 20], Grade::B));
///
/// // A whole sheet is not one plan record; its first bytes are.
/// let refusal = regrade(&sheet, &sheet, &mut results).unwrap_err();
/// assert_eq!((refusal.ground(), refusal.offset), (Some(Ground::BadSecondPlan), 0));
/// assert!(regrade(&sheet, &sheet[..PLAN_SIZE], &mut results).is_ok());
/// # Ok::<(), hatmuyon::Refusal>(())
/// ```
///
/// # Panics
///
/// Never with an archive of this version; see [Versions](crate#versions).
pub fn regrade<'r>(
    sheet: &[u8],
    plan: &[u8],
    results: &'r mut [u8],
) -> Result<Graded<'r>, Refusal> {
    // Safety: as in `grade`; two slices that are only read may overlap.
    let answer = unsafe {
        ffi::hatmuyon_regrade(
            sheet.as_ptr(),
            sheet.len(),
            plan.as_ptr(),
            plan.len(),
            results.as_mut_ptr(),
            results.len(),
        )
    };
    outcome(answer, results).map_err(|(number, offset)| Refusal { number, offset })
}
