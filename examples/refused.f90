program r
  integer :: a(4), i
  do concurrent (i = 1:4)
    if (i > 2) then
      a(i) = i
    end if
  end do
  print *, a
end program r
