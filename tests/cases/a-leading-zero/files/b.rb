class A
  def f
    01
  end
end
