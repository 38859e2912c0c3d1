class A
  def f
    "\n"
    "\t"
    "\""
    "\\"
    "\#"
    "\#{x}"
    "a\n\t\"\\\#b"
  end
end
