! A name is misspelled in the loop: there is no `step`.
program u
  integer :: a(4), i, stop_at
  stop_at = 3
  do concurrent (i = 1:4)
    a(i) = i + step
  end do
  print *, a
end program u
