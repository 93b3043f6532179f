! A number of kind 4 has 32 bits, and can't be shifted by 33 places.
program places
  integer :: a(3), i
  do concurrent (i = 1:3)
    a(i) = shiftl(1, 11*i)
  end do
  print *, a
end program places
