program r
  integer :: a(3), i
  do concurrent (i = 1:3)
    a(i) = 7 - i - 2 * i + 1 * i * i
  end do
  print *, a
end program r
