program g
  integer :: a(4), b(4), i
  do concurrent (i = 2:4)
    a(i) = i
  end do
  do concurrent (i = 1:4)
    b(i) = a(i) + 1
  end do
  print *, b
end program g
