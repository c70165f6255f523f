! 3*x1 + 5*x2 - 7 = 0 with x1 >= 0 and x2 >= 0, solved from Fortran.

! A slice of the library is an array and its length; include/plassobine.h says what each array holds.
! Fortran has no unsigned numbers: the sets and the outcome are lent as 64 bits.
module plassobine
    use, intrinsic :: iso_c_binding, only: c_int8_t, c_int32_t, c_int64_t, c_size_t
    implicit none

    interface
        integer(c_int32_t) function plassobine_solve(n, m, k, equations, equations_length, inequalities, &
                inequalities_length, substitution, substitution_length, marks, marks_length, back, back_length, &
                reasons, reasons_length, conflict, conflict_length, tightened, tightened_length, used, used_length, &
                outcome, outcome_length) bind(C, name="plassobine_solve")
            import :: c_int8_t, c_int32_t, c_int64_t, c_size_t
            integer(c_size_t), value :: n, m, k
            integer(c_size_t), value :: equations_length, inequalities_length, substitution_length, marks_length
            integer(c_size_t), value :: back_length, reasons_length, conflict_length, tightened_length, used_length
            integer(c_size_t), value :: outcome_length
            integer(c_int64_t), intent(in) :: equations(*), inequalities(*)
            integer(c_int64_t), intent(inout) :: substitution(*), back(*), reasons(*), conflict(*), tightened(*)
            integer(c_int8_t), intent(inout) :: marks(*)
            integer(c_int64_t), intent(inout) :: used(*), outcome(*)
        end function
    end interface
end module

program solve
    use plassobine
    implicit none

    integer(c_size_t), parameter :: n = 2, m = 1, k = 2
    ! An inequality says sum + constant <= 0, so x1 >= 0 is -x1 <= 0.
    integer(c_int64_t) :: equations(m * (n + 1)) = [3, 5, -7]
    integer(c_int64_t) :: inequalities(k * (n + 1)) = [-1, 0, 0, 0, -1, 0]
    integer(c_int64_t) :: substitution(n * (n + 1)), back(n * (n + 1)), reasons(n * (m + 1))
    integer(c_int64_t) :: conflict(m + 1), tightened(k * (n + 1))
    integer(c_int8_t) :: marks(n)
    integer(c_int64_t) :: used(k), outcome(5)

    if (plassobine_solve(n, m, k, equations, size(equations, kind=c_size_t), inequalities, &
            size(inequalities, kind=c_size_t), substitution, size(substitution, kind=c_size_t), marks, &
            size(marks, kind=c_size_t), back, size(back, kind=c_size_t), reasons, size(reasons, kind=c_size_t), &
            conflict, size(conflict, kind=c_size_t), tightened, size(tightened, kind=c_size_t), used, &
            size(used, kind=c_size_t), outcome, size(outcome, kind=c_size_t)) /= 1) error stop 1

    write (*, '(a, *(1x, i0))') 'outcome', outcome
    if (outcome(1) == 3) then
        call print_used(outcome(2), used(outcome(2)))
        call print_used(outcome(3), used(outcome(3)))
    end if

contains

    ! The equations that an inequality used: bit j - 1 stands for equation j.
    subroutine print_used(i, set)
        integer(c_int64_t), intent(in) :: i, set
        integer :: j
        integer(c_size_t) :: at

        write (*, '(a, i0, a, *(1x, i0))') 'inequality ', i, ' used equations', &
            pack([(j, j = 1, int(m))], [(btest(set, int(at) - 1), at = 1, m)])
    end subroutine
end program
