! A statement of every form. No rule is broken, so each was read and nests; the program isn't run yet (K0).
program statements
  use, intrinsic :: iso_fortran_env, only: int64, int8
  implicit none
  integer, parameter :: n = 10, low = -1
  integer(int64) :: total = 0_8, table(0:9, low:n) = 0
  integer(kind=1), dimension(3) :: small = [1, 2, 3]
  logical :: found = .false., marks(n)
  integer :: i, j, k
  total = -2**2 + 7/(-2) - mod(-7, 3)*(i + 1)
  table(mod(i, 3), n) = int(total, kind=4)
  small = [1, 2*i, 3]
  found = .not. (i == 1 .and. j /= 2) .or. i < j .eqv. k >= 3 .neqv. i .le. 4
  if (found) i = 1
  if (i > 1) then
    continue
  else if (i == 0) then
    call clear(total, table(1, 2))
  else
    call quiet
  end if
  outer: do i = 1, n, 2
    do j = n, 1, -1
      if (j == 3) cycle outer
      if (j == 4) exit outer
      if (marks(j)) exit
    end do
  end do outer
  do while (i < 10)
    i = i + 1
  enddo
  do
    exit
  end do
  choice: do
    exit choice
  end do choice
  select case (i)
  case (1, 3:5, :0)
    print *, 'one', "it's", total, table
  case (7:)
    write (*, *) found
  case default
    stop
  end select
  do concurrent (i = 1:n)
    marks(i) = .true.
  end do
  do concurrent (integer(int8) :: k = 1:9:2, j = 1:3, marks(j)) default(none) local(i) local_init(found) &
      shared(marks, table) reduce(+:total) reduce(.and.: found) reduce(max:small)
    total = total + j
  end do
  read *, i, marks
  read (*, *) j
  if (i == 2) error stop
  print *
  write (*, *)
contains
  pure subroutine clear(x, y)
    integer(int64), intent(out) :: x
    integer(int64), intent(in out) :: y
    x = y
    return
  end subroutine clear
  pure recursive integer function twice(x) result(r)
    integer, intent(in) :: x
    r = 2*x
  end function twice
  subroutine quiet
  end subroutine
  function plain()
    integer :: plain
    plain = twice(1)
  endfunction
end program statements
