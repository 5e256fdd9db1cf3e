SELECT 'a' = 'a  ';
