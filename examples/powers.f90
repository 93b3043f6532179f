! Numbers that need 64 bits, by a kind from the module of the language and a named constant.
program powers
  use, intrinsic :: iso_fortran_env, only: int64
  implicit none
  integer, parameter :: n = 12
  integer(int64) :: power(0:n), base = 31
  integer :: i
  do concurrent (i = 0:n)
    power(i) = base**i
  end do
  print *, power
  print *, 'sum:', sum(power), 'last:', power(ubound(power, 1))
  print *, 'the greatest number of this kind:', huge(base)
end program powers
