program r
  integer :: v(4), b(4), p(4), i
  v = 2
  b(1) = v(1)
  do concurrent (i = 2:4)
    b(i) = v(i) + v(i-1)
  end do
  p(1) = b(1)
  p(2) = b(2)
  do concurrent (i = 3:4)
    p(i) = b(i) + b(i-2)
  end do
  print *, p
end program r
