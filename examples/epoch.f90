! Every call but those of files, at one epoch, 2004-05-17 0h: `epoch SHEET <epoch.txt`. The input is six phases, then of the Moon
! and of the Sun the mass ratio, x, y, z and r, then how many own lines there are, and of each the six multipliers, ip and op, then
! the pole's offsets xp and yp, which are not that day's. The corrections are gathered in zeros of degree 12; a processor adds
! 1e-15 times each to its own coefficients.
program epoch
    use surfgimlet
    implicit none
    integer(c_int32_t), parameter :: degree = 12, love = anelastic
    integer, parameter :: entries = (degree + 1) * (degree + 2) / 2
    integer(c_int64_t) :: c(entries) = 0, s(entries) = 0, c_before(entries) = 0, s_before(entries) = 0
    integer(c_int64_t) :: given(6), xp, yp, c20, first, second
    integer(c_int32_t) :: n(6), number, named, answer, bits(6)
    integer(c_size_t) :: index
    integer(c_int8_t), allocatable :: sheet(:)
    type(phases) :: at
    type(hour) :: kept
    type(body) :: moon, sun
    type(own_line), allocatable :: lines(:)
    integer :: status

    call read_sheet()
    read (*, *, iostat=status) given
    if (status /= 0) call give_up('six phases are wanted')
    if (any(given < 0 .or. given >= 2_c_int64_t**32)) call give_up('a phase is 0 to 2**32 - 1')
    bits = phase(given)
    at = phases(bits(1), bits(2), bits(3), bits(4), bits(5), bits(6))
    moon = read_body()
    sun = read_body()
    call read_lines()
    read (*, *, iostat=status) xp, yp
    if (status /= 0) call give_up('two pole offsets are wanted')

    if (version() /= header_version) call give_up('library and module are of two versions')
    print '(a, i0)', 'version ', version()

    ! the solid tide wants a zero-tide C20: a tide-free one, made with this Love model's k20, is moved once, before the first epoch
    call accepted('move_c20', move_c20(-484165000000000_c_int64_t, tide_free, zero_tide, love, c20))
    print '(a, i0)', 'C20 zero-tide ', c20

    ! made once for the epoch, and used for any number of fields
    kept = set_hour(at)

    ! what the Moon and the Sun raise, and the lines of a laser operator's selection; an altimeter operator's may be major_lines()
    call accepted('solid_tide', solid_tide(degree, c, s, moon, sun, love, kept, all_lines(), named))
    call added('solid tide')
    print '(a, i0)', 'lines named ', named
    call accepted('own_lines', own_lines(degree, c, s, lines, at))
    call added('own lines')
    call accepted('pole_tide', pole_tide(degree, c, s, xp, yp, love))
    call added('pole tide')
    call accepted('ocean_tide', ocean_tide(degree, c, s, sheet, at, centre_of_mass))
    call added('ocean tide')

    ! K1 is 165,555; a printed line by its number, and a number that none has
    call accepted('multipliers_of', multipliers_of(165555, n))
    call accepted('number_of', number_of(n, number))
    print '(i0, a, 6(1x, i0))', number, ' is', n
    call accepted('find_line', find_line(number, index, first, second))
    print '(a, i0, a, i0, 1x, i0)', 'line ', index, ' amplitudes ', first, second
    print '(a, i0, a, i0, a)', 'cosine ', kept%cosines(index + 1), ' sine ', kept%sines(index + 1), ' at this hour'
    kept = move_hour(start_hour(), argument_s, 2**30, answer)
    call accepted('move_hour', answer)
    print '(a, i0, a, i0, a)', 'cosine ', kept%cosines(index + 1), ' sine ', kept%sines(index + 1), &
        ' from the start, s moved by a quarter turn'
    answer = find_line(265555, index, first, second)
    print '(2a)', '265555: ', words(answer)

contains

    subroutine give_up(why)
        character(*), intent(in) :: why
        print '(a)', why
        stop 1
    end subroutine

    ! ends the program where a call was refused
    subroutine accepted(name, answer)
        character(*), intent(in) :: name
        integer(c_int32_t), intent(in) :: answer
        if (answer == 0) return
        print '(2a, i0, 2a)', name, ' refused with ', answer, ': ', words(answer)
        stop 1
    end subroutine

    ! prints what a call has added
    subroutine added(name)
        character(*), intent(in) :: name
        integer :: l, m, i
        print '(a)', name
        i = 0
        do l = 0, degree
            do m = 0, l
                i = i + 1
                if (c(i) /= c_before(i)) print '(a, i0, a, i0, a, sp, i0)', 'C(', l, ',', m, ') ', c(i) - c_before(i)
                if (s(i) /= s_before(i)) print '(a, i0, a, i0, a, sp, i0)', 'S(', l, ',', m, ') ', s(i) - s_before(i)
            end do
        end do
        c_before = c
        s_before = s
    end subroutine

    type(body) function read_body()
        read_body%kind = rectangular
        read (*, *, iostat=status) read_body%ratio, read_body%x, read_body%y, read_body%z, read_body%r
        if (status /= 0) call give_up('five numbers of a body are wanted')
    end function

    subroutine read_lines()
        integer :: length, i
        read (*, *, iostat=status) length
        if (status /= 0 .or. length < 0 .or. length > 64) call give_up('the number of own lines is wanted, at most 64')
        allocate (lines(length))
        do i = 1, length
            read (*, *, iostat=status) lines(i)
            if (status /= 0) call give_up('six multipliers, ip and op of an own line are wanted')
        end do
    end subroutine

    subroutine read_sheet()
        character(4096) :: name
        integer :: unit, length
        call get_command_argument(1, name)
        open (newunit=unit, file=name, access='stream', form='unformatted', action='read', status='old', iostat=status)
        if (status /= 0) call give_up('a sheet is wanted')
        inquire (unit=unit, size=length)
        allocate (sheet(length))
        read (unit) sheet
        close (unit)
    end subroutine
end program
