program n
  integer(1) :: b(2)
  logical :: far(2)
  integer :: i
  b = [3, 300]
  do concurrent (i = 1:2)
    far(i) = b(i) > 40
  end do
  print *, 'far:', count(far), far
end program n
