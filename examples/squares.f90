program s
  integer :: a(4), i
  do concurrent (i = 1:4)
    a(i) = i*i
  end do
  print *, a
end program s
