//! The examples of source document 000 (USDA File Code 120 A-6) as sheets, in the manual's order. A
//! comment says what was filled in and what is garbled in the crawled copy. In all of them: a class
//! that an example does not show gets the wide plan 0/999.9/0; "=" stands for a grade that is not
//! printed, which repeats the one before it, so that number 5 does not apply; codes are 1, 2, ...
//! where the manual has one for each unit or none. Mold counts are no counts of defects: the example
//! of them is in `mold.rs`.

#[rustfmt::skip]
pub const EXAMPLES: &[(&str, &str)] = &[
    // Major defects only. The fifth CuSum is in the computation below the table.
    // Filled in: B and C.
    ("computing, example 1", "
        designated    A
        plan major    1/4/3 = =
        major         3 4 0 8 2
        cusum         0 0 0 3 1
    "),
    // Severe defects only, decimal fractions. Filled in: B and C.
    ("computing, example 3", "
        designated    A
        plan severe   0.3/0.1/0.9 = =
        severe        0   0   0   0   2
        cusum         0.2 0.1 0   0   0.9
    "),
    // Major defects only, decimal compound fractions. Filled in: B and C.
    ("computing, example 4", "
        designated    A
        plan major    0.5/1.5/2.0 = =
        major         0   2   1   3   3
        cusum         0   0.5 0   1.5 2.0
    "),
    // All classes. Filled in: B and C.
    ("computing, example 5", "
        designated    A
        plan critical 0.5/0.5/1.5 = =
        plan severe   1/1/2 = =
        plan major    1/4/3 = =
        plan total    1/9/4 = =
        critical      0   0   1   1   0   2
        cusum         0   0   0.5 1   0.5 1.5
        severe        0   1   2   0   1   0
        cusum         0   0   1   0   0   0
        major         3   0   2   3   2   8
        cusum         0   0   0   0   0   3
        minor         5   4   6   10  5   0
        total         8   5   11  14  8   10
        cusum         0   0   2   4   3   4
    "),
    // Critical defects only. Filled in: C.
    ("step 1, example 1", "
        designated    A
        plan critical 0.2/0.2/0.8 0.5/0.5/1.5 =
        critical      0   1   0   0   0
        cusum         0   0.8 0.6 0.4 0.2
        standing      m   m   m   m   m
    "),
    // Total defects only. Filled in: C.
    ("step 1, example 2", "
        designated    B
        plan total    1/8/3 2/12/5 =
        total         10  14  0   16  10
        cusum         0   2   0   4   2
        force         B   B   B   B   B
        standing      m   m   m   m   m
    "),
    // All classes.
    ("step 1, example 3", "
        designated    B
        plan critical 0/1/1     1/2/2  1/3/3
        plan severe   0.5/1.5/2 1/3/3  1/5/3
        plan major    1/3/3     1/5/3  1/6/4
        plan total    1/6/4     2/12/5 2/17/7
        critical      1   0   0   3   0   1
        cusum         0   0   0   1   0   0
        severe        0   2   3   1   1   1
        cusum         0   0   0   0   0   0
        major         1   4   4   1   4   2
        cusum         0   0   0   0   0   0
        minor         4   8   6   5   2   2
        total         6   14  13  10  7   6
        cusum         0   2   3   1   0   0
        force         B   B   B   B   B   B
        standing      m   m   m   m   m   m
    "),
    // Major defects only; P1 and P2 of paper 01.
    ("step 2, example 1", "
        designated    A
        plan major    1/3/3 1/6/4 1/9/4
        major         8   3   2   1   12
        cusum         3   3   2   0   3
        force         A   A   A   A   A
        standing      f   m   m   m   f
        grade         B   -   -   -   C
    "),
    // Severe defects only. Garbled: C, printed as 1.5, 1.5, 1.5, 3; 'T+L=4.5' makes it 1.5/1.5/3.
    ("step 2, example 2", "
        designated    A
        plan severe   0/0.5/0.5 0.4/0.8/1.6 1.5/1.5/3
        severe        1   0   1   0   5
        cusum         0.5 0   0.5 0   0.5
        force         A   A   A   A   A
        standing      m   m   m   m   f
        grade         -   -   -   -   S
    "),
    // All classes. The C of unit 5 is not printed.
    ("step 2, example 3", "
        designated    B
        plan critical 0/1/1     1/2/2  1/3/3
        plan severe   0.5/1.5/2 1/3/3  1/5/3
        plan major    1/3/3     1/5/3  1/6/4
        plan total    1/6/4     2/12/5 2/17/7
        critical      2   2   1   1   5   1
        cusum         1   1   0   0   2   1
        severe        1   7   2   2   2   1
        cusum         0   3   2   1   0   0
        major         4   5   4   5   5   4
        cusum         0   0   0   0   0   0
        minor         2   2   1   4   8   4
        total         9   16  8   12  20  10
        cusum         0   4   0   0   5   3
        force         B   B   B   B   B   B
        standing      m   f   m   m   f   m
        grade         -   C   -   -   -   -
    "),
    // Prerequisites do not make two in a row; the worse of the two that are printed for each unit.
    // Filled in: plan and counts; unit 3 fails A and grades B.
    ("step 3, example 1", "
        designated    A
        plan major    1/3/3 1/6/4 1/9/4
        prerequisite  A   B   A   A   B   B
        major         3   3   8   3   3   3
        standing      m   m   f   m   m   m
        grade         A   B   B   A   B   B
    "),
    // Severe defects only. Filled in: recoverable 0, as nothing is said of recovery there.
    ("step 3, example 2", "
        designated    A
        plan severe   0/0.5/0.5 0.4/0.8/1.6 1.5/1.5/3.0
        severe        2   2   0   0   0   0
        cusum         0.5 0.5 0   0   0   0
        force         A   A   B   B   B   A
        standing      f   f   -   -   -   -
        grade         B   B   -   -   -   -
    "),
    // Total of all classes. The CuSums of units 8 and 9 are not printed. Filled in: recoverable 0.
    ("step 3, example 3", "
        designated    B
        plan total    2/12/5 2/17/7 3/22/9
        total         17  24  20  18  16  17  15  16  17
        cusum         2   7   7   0   0   0   0   -   -
        force         B   B   B   C   C   C   C   B   B
        standing      -   f   f   -   -   -   -   -   -
        grade         -   C   C   -   -   -   -   -   -
    "),
    // Major defects only; Substandard, so that nothing is computed for units 5 to 8.
    // Filled in: recoverable 0.
    ("step 3, example 4", "
        designated    A
        plan major    1/8/4 2/12/5 2/17/7
        major         9   8   14  28  10  8   8   6   9
        cusum         2   2   4   4   -   -   -   -   2
        force         A   A   A   A   S   S   S   S   A
        standing      -   -   f   f   -   -   -   -   -
        grade         -   -   B   S   -   -   -   -   -
    "),
    // All classes. Garbled: a cell is lost from the counts of critical and from those of severe, which
    // the totals restore; the grades are lost. Filled in: recoverable 0.
    ("step 3, example 5", "
        designated    A
        plan critical 0.3/0.1/0.9 0/0.5/0.5   0/1/1
        plan severe   0/0.5/0.5   0/1/1       0.5/1.5/2.0
        plan major    0/1/1       1.5/1.5/3.0 0/3/2
        plan total    1/2/3       1/3/3       1/5/3
        prerequisite  A   A   A   A   A   A   A   A   A
        critical      0   0   0   1   0   0   0   0   0
        cusum         0.2 0.1 0   0.5 0   0   0   0.2 0.1
        severe        1   1   0   0   0   0   0   1   0
        cusum         0.5 0.5 0   0   0   0   0   0.5 0
        major         2   1   4   0   0   1   0   1   0
        cusum         1   1   1   0   0   0   0   0   0
        minor         1   0   0   2   1   1   0   0   1
        total         4   2   4   3   1   2   0   2   1
        cusum         3   3   3   1   0   0   0   1   0
        force         A   A   A   B   B   B   B   A   A
        grade         -   B   B   -   -   -   -   -   -
    "),
    // Total of all classes; redesignated B in step 3. Filled in: recoverable 0.
    ("step 4, example 1", "
        designated    A
        plan total    2/10/5 2/14/7 3/22/9
        before        .   .   .   B   .   .   .   .   .
        total         10  18  25  20  12  10  14  13  12
        cusum         2   5   5   1   0   0   0   1   0
        force         A   A   A   C   C   C   C   B   B
        grade         -   B   C   -   -   -   -   -   -
    "),
    // Major defects only; redesignated A.
    ("step 4, example 2", "
        designated    B
        plan major    3/22/9 4/43/12 6/84/18
        before        .   .   .   A   .   .   .   .   .
        major         20  10  22  20  20  0   25  20  22
        cusum         0   0   0   1   0   0   3   1   1
        force         B   B   B   A   A   A   A   A   A
    "),
    // All classes; redesignated A, then C. Garbled: the total of unit 9, printed as 20, is 29 by its
    // counts and by its CuSum; in the critical B row stand the severe CuSums at A once more.
    // Filled in: the designated grade at first, B by the row of its CuSums.
    ("step 4, example 3", "
        designated    B
        plan critical 1/1/2       1.0/2.5/3.0 1/4/3
        plan severe   1.0/2.5/3.0 1/4/3       1/6/4
        plan major    1/6/4       1/10/4      2/12/5
        plan total    2/15/6      3/22/9      4/27/10
        before        .   .   A   .   .   .   .   C   .
        prerequisite  A   A   A   A   A   A   A   A   A
        critical      0   1   0   1   0   0   2   4   5
        cusum         0   0   0   0   0   0   1   1   2
        severe        1   1   2   2   0   0   2   2   2
        cusum         0   0   0.5 0   0   0   0   0   0
        major         2   2   2   2   2   0   2   2   2
        cusum         0   0   0   0   0   0   0   0   0
        minor         2   3   2   4   2   0   2   4   20
        total         5   7   6   9   4   0   8   12  29
        cusum         0   0   0   0   0   0   0   0   2
        force         B   B   A   A   A   A   A   C   C
    "),
    // Codes of two units each and a last of one. Filled in: plan and counts, units 2 and 7 failing A.
    ("step 5, example 1", "
        designated    A
        plan major    1/3/3 1/6/4 1/9/4
        code          1   1   2   2   3   3   4   4   5
        major         3   8   3   2   3   3   9   3   2
        grade         A   B   A   A   A   A   B   A   A
        production    B   B   A   A   A   A   B   B   A
    "),
    // All classes, codes of three units. Garbled: minor of unit 2, printed as 1, is 2 by the total and
    // its CuSum; the major CuSum of unit 7, printed as 1, is 0 + 1 - 1 by the text.
    ("step 5, example 2", "
        designated    A
        plan critical 0.3/0.1/0.9 0/0.5/0.5 0/1/1
        plan severe   0/0.5/0.5   0/1/1     0.5/1.5/2
        plan major    0/1/1       1.5/1.5/3 0/3/2
        plan total    1/2/3       1/3/3     1/5/3
        code          1   1   1   2   2   2   3   3   3
        prerequisite  A   A   A   A   A   B   A   A   A
        critical      0   0   0   0   0   1   0   0   0
        cusum         0.2 0.1 0   0   0   0.9 0.8 0.7 0.6
        severe        0   0   1   0   1   0   0   0   0
        cusum         0   0   0.5 0   0.5 0   0   0   0
        major         0   0   2   0   0   0   1   0   0
        cusum         0   0   1   0   0   0   -   0   0
        minor         2   2   1   3   1   1   0   1   2
        total         2   2   4   3   2   2   1   1   2
        cusum         1   1   3   3   3   3   2   1   1
        grade         A   A   A   B   A   B   A   A   A
        production    A   A   A   B   B   B   A   A   A
    "),
    // All classes; redesignated A, then C. Garbled: critical at C, which with the printed 1/6/4 makes
    // a CuSum of 1 at unit 9, printed as 2.
    ("step 5, example 3", "
        designated    B
        plan critical 1/1/2       1.0/2.5/3 1/6/4
        plan severe   1.0/2.5/3   1/4/3     1/6/4
        plan major    1/6/4       1/10/4    2/12/5
        plan total    2/15/6      4/27/10   4/27/10
        before        .   .   A   .   .   .   .   .   C
        prerequisite  A   A   A   A   A   B   A   A   A
        critical      1   0   1   0   1   0   1   0   6
        cusum         0   0   1   0   0   0   0   0   -
        severe        2   0   1   1   0   0   2   1   7
        cusum         0   0   0   0   0   0   0   0   2
        major         2   0   2   2   0   0   5   4   2
        cusum         0   0   0   0   0   0   0   0   0
        minor         5   0   2   4   4   4   2   2   2
        total         10  0   6   7   5   4   10  7   17
        cusum         0   0   0   0   0   0   0   0   0
        force         B   B   A   A   A   A   A   A   C
        grade         B   B   A   A   A   B   A   A   C
        production    B   B   A   A   A   B   A   A   C
    "),
    // Total defects only. Garbled: both grade rows are copied from step 5, example 3; the grades here
    // are those of the words below the table. Filled in: recoverable 1.
    ("appendix 1, example 1", "
        designated    A
        plan total    2/12/5 2/17/7 3/22/9
        code          1   2   2   2   3   3   3   4   4
        recoverable   1   1   1   1   1   1   1   1   1
        total         12  16  14  14  12  10  10  11  12
        cusum         2   5   5   0   0   0   0   1   1
        force         A   A   A   B   B   B   B   A   A
        standing      -   f   f   -   r   r   r   -   -
        grade         -   B   B   -   A   A   A   -   -
        production    -   B   B   B   A   A   A   -   -
    "),
    // Major defects only; P7 and P8 of paper 01. Filled in: recoverable 1.
    ("appendix 1, example 2", "
        designated    B
        plan major    1.0/0.5/2 1.5/1.5/3 1/3/3
        recoverable   1   1   1   1   1   1   1   1   1
        major         1   4   3   2   2   1   1   1   1
        cusum         1   3   3   0   0   0   0   0   1
        force         B   B   B   C   C   C   C   C   B
        standing      -   f   f   -   -   r   r   r   -
        grade         B   C   C   -   -   -   -   -   B
        production    B   C   C   C   C   B   B   B   B
    "),
    // Total defects only; redesignated B after the failures, then the line is stopped.
    // Filled in: recoverable 0, as the production was not recovered.
    ("appendix 1, example 3", "
        designated    A
        plan total    1/6/4 2/12/5 3/18/9
        before        .   .   .   B|  .   .   .
        total         8   10  18  14  13  10  9
        cusum         3   4   4   0   0   0   0
        force         A   A   A   C   C   C   C
        grade         A   B   C   -   -   -   -
        production    A   B   C   C   C   C   C
    "),
    // Total defects only; redesignated B after the failures. Filled in: recoverable 1.
    ("appendix 1, example 4", "
        designated    A
        plan total    2/10/5 2/14/7 3/22/9
        before        .   .   .   B   .   .   .   .   .
        recoverable   1   1   1   1   1   1   1   1   1
        total         10  18  25  20  12  10  14  13  12
        cusum         2   5   5   1   0   0   0   1   0
        force         A   A   A   C   C   C   C   B   B
        standing      -   -   -   -   r   r   r   -   -
        grade         A   B   C   -   -   -   -   -   B
        production    A   B   C   C   B   B   B   B   B
    "),
    // Major defects only; recovery of Substandard. Garbled: A, printed as 2/12/5, is 1/8/4 by the
    // CuSums, as in step 3, example 4. Filled in: recoverable 1, and designated A.
    ("appendix 1, example 5", "
        designated    A
        plan major    1/8/4 2/12/5 2/17/7
        recoverable   1   1   1   1   1   1   1   1   1
        major         9   8   14  28  10  8   8   6   9
        cusum         2   2   4   4   -   -   -   -   2
        force         A   A   A   A   S   S   S   S   A
        standing      -   -   f   f   -   r   r   r   -
        grade         A   A   B   S   -   -   -   -   A
        production    A   A   B   S   S   A   A   A   A
    "),
    // Total defects only, tote bins.
    ("appendix 2, example 2", "
        designated    A
        plan total    1/8/4 2/14/7 3/22/9
        total         10  10  5   8   25  5   8   7   35
        cusum         3   4   1   1   4   1   1   0   4
        force         A   A   A   A   A   A   A   A   A
        grade         A   B   A   A   C   A   A   A   S
        production    A   B   A   A   C   A   A   A   S
    "),
    // Total defects only, every fifth container: 10 to 19 are grade B, so that 20 on are recovered;
    // the codes are those of the containers. Filled in: recoverable 1.
    ("appendix 2, example 3", "
        designated    A
        plan total    1/6/4 2/12/5 3/18/9
        code          5   10  15  20  25  30  35  40  45
        recoverable   1   1   1   1   1   1   1   1   1
        total         6   12  12  6   5   0   6   4   5
        cusum         1   4   4   0   0   0   1   0   0
        force         A   A   A   B   B   B   A   A   A
        grade         A   B   B   -   -   -   -   -   -
        production    A   B   B   A   A   A   A   A   A
    "),
    // Total defects only, sampling frequency changed. Filled in: recoverable 1.
    ("appendix 4, example 1", "
        designated    A
        plan total    1/3/3 1/5/3 1/6/4
        recoverable   1   1   1   1   1   1   1   1   1
        total         3   3   3   6   6   3   2   3   2
        cusum         1   1   1   3   3   0   0   0   0
        force         A   A   A   A   A   B   B   B   A
        grade         A   A   A   B   B   -   -   -   A
        production    A   A   A   B   B   A   A   A   A
    "),
    // All classes, reevaluated at a buyer's plan; no two in a row fail, so that step 3 does not come
    // up. Units 8 and 9 are cut off, and the codes cannot be told apart. Filled in: codes 1, 2, ...
    ("appendix 7, units 1 to 7", "
        designated    B
        plan critical 0.3/0.1/0.9 0/0.5/0.5 0/1/1
        plan severe   0/0.5/0.5   0/1/1     0.5/1.5/2
        plan major    0/1/1       1.5/1.5/3 0/3/3
        plan total    1/2/3       1/3/3     1/5/3
        prerequisite  A   A   A   A   A   A   A
        critical      0   0   0   1   0   0   0
        cusum         0   0   0   0.5 0   0   0
        severe        1   0   0   1   1   0   0
        cusum         0   0   0   0   0   0   0
        major         1   0   1   1   1   1   1
        cusum         1   0   0   0   0   0   0
        minor         1   1   1   4   1   1   1
        total         3   1   2   7   3   2   2
        cusum         1   0   0   3   3   2   1
        force         B   B   B   B   B   B   B
        standing      m   m   m   f   m   m   m
        grade         B   B   B   C   B   B   B
    "),
    // Major defects only, the original inspection of the verification example. Garbled: of eight units
    // seven CuSums are left in part c; part g has them all.
    ("appendix 8, original inspection", "
        designated    B
        plan major    0/1/1 1.5/1.5/3 0/3/2
        major         1   1   1   1   1   1   1   1
        cusum         1   0.5 0   0   0   0   0   0
        force         B   B   B   B   B   B   B   B
    "),
];
