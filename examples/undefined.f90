program u
  integer :: a(4), i
  do concurrent (i = 2:4)
    a(i) = a(i-1) + 1
  end do
  print *, a
end program u
