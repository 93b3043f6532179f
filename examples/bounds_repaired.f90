program q
  integer :: a(4), b(4), i
  a = 1
  print *, a
  b = 0
  do concurrent (i = 1:3)
    b(i) = a(i+1)
  end do
  print *, b
end program q
