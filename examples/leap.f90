! A LOGICAL array: which years are leap years.
program leap
  integer, parameter :: first = 1896
  logical :: is_leap(first:first + 12)
  integer :: year
  do concurrent (year = first:first + 12)
    is_leap(year) = mod(year, 4) == 0 .and. (mod(year, 100) /= 0 .or. mod(year, 400) == 0)
  end do
  print *, is_leap
  print *, 'leap years:', count(is_leap), 'any:', any(is_leap), 'all:', all(is_leap)
end program leap
