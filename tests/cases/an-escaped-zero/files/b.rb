class A
  def f
    "\0"
  end
end
