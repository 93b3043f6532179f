program c
  integer :: a(10), i
  do concurrent (i = 1:10)
    a(i) = i
  end do
  print *, a
end program c
