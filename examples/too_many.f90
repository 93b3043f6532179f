! A limit that was meant to be small: 5,000,000 iterations are more than one loop may have.
program too_many
  integer :: a(10), n = 5, i
  n = n*1000000
  do concurrent (i = 1:n)
    a(mod(i, 10) + 1) = 0
  end do
  print *, a
end program too_many
