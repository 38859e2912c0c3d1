class A
  def f() 1 end def g() 1 end
end
