! A matrix of two dimensions times a vector, one row an iteration. It is written column by column.
program matrix
  integer :: m(3, 2), x(2) = [5, 7], y(3), row
  do concurrent (row = 1:3)
    m(row, 1) = row
    m(row, 2) = 10*row
  end do
  do concurrent (row = 1:3)
    y(row) = m(row, 1)*x(1) + m(row, 2)*x(2)
  end do
  print *, m
  print *, y
end program matrix
