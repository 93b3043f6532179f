! Each column is computed from the one before it, so the iterations depend on each other.
program columns
  integer :: m(2, 4) = 1, col
  do concurrent (col = 2:4)
    m(1, col) = m(2, col - 1) + 1
    m(2, col) = 2*m(1, col)
  end do
  print *, m
end program columns
