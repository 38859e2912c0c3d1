class A
  def f
    1__0
  end
end
