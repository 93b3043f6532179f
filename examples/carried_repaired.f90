program c
  integer :: a(4), i
  do concurrent (i = 1:4)
    a(i) = i - 1
  end do
  print *, a
end program c
