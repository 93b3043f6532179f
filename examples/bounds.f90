program b
  integer :: a(4), i
  a = 1
  print *, a
  do concurrent (i = 1:4)
    a(i) = a(i+1)
  end do
  print *, a
end program b
